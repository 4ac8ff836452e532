/* The walk along the suffix links, for the twin: letters are read towards a side through a pointer to the first one
 * and a step of 1 or -1, so that one walk serves both ends, and through tables, so that it serves both readings. */
#ifndef BENCH_LINKS_H
#define BENCH_LINKS_H

#include <stdbool.h>

#include "cells.h"

/* Towards the left a letter is seen as its partner, so that a palindrome is read alike from either side. The letters that
 * a walk compares are raw ones: towards the right the partner of the next letter is looked for among them, towards the left
 * the next letter as it is seen, the partner of its partner. */
struct view {
    const uint8_t *first;
    ptrdiff_t step;
    const uint8_t *seen_as, *looked_for;
    bool inverted;
};

static inline struct view view_of(const uint8_t *b, enum side side)
{
    const uint8_t *w = letters_of(b), *same = partner_tables[PLAIN], *partners = partners_of(b);
    unsigned n = size_of(b);
    bool inverted = reading_of(b) == INVERTED;
    if (side == RIGHT)
        return (struct view){w, 1, same, partners, inverted};
    return (struct view){n == 0 ? w : w + n - 1, -1, partners, same, inverted};
}

static inline uint8_t raw(struct view v, size_t i) { return v.first[v.step * (ptrdiff_t)i]; }

/* The first row from `row` on along the links whose palindrome, ending the first k letters, has the letter that is sought just
 * before it, and the imaginary one where none has; and how many rows come before it. */
static inline unsigned walk_to(const uint8_t *b, struct view v, size_t k, unsigned row, uint8_t sought, unsigned *passed)
{
    *passed = 0;
    while (row != IMAGINARY) {
        size_t stored = get(b, row, LENGTH);
        if (stored <= k && raw(v, k - stored) == sought)
            break;
        row = get(b, row, LINK);
        ++*passed;
    }
    return row;
}

/* The same where d's partner is sought. */
static inline unsigned walk_counted(const uint8_t *b, struct view v, size_t k, unsigned row, uint8_t d, unsigned *passed)
{
    return walk_to(b, v, k, row, v.looked_for[d], passed);
}

/* The same where nobody asks how many. */
static inline unsigned walk(const uint8_t *b, struct view v, size_t k, unsigned row, uint8_t d)
{
    unsigned passed;
    return walk_counted(b, v, k, row, d, &passed);
}

/* Whether a letter makes a palindrome around the row at which its walk ended: around the imaginary one a letter stands by
 * itself, and that is its own partner in a plain record alone. */
static inline bool serves(struct view v, unsigned row) { return row != IMAGINARY || !v.inverted; }

/* The row of what d makes around row u, 0 where that stands nowhere; the empty string's where u does not serve. */
static inline unsigned made(const uint8_t *b, struct view v, unsigned u, uint8_t d)
{
    return serves(v, u) ? edge_of(b, u, d) : (unsigned)EMPTY;
}

/* The row of the longest palindrome that ends k + 1 letters, from that of the first k, in a table that has it. */
static inline unsigned step(const uint8_t *b, struct view v, size_t k, unsigned row, uint8_t d)
{
    return made(b, v, walk(b, v, k, row, d), d);
}

/* The same for letter k of a good store that is read again, from left to right: the partners of the four letters are enough. */
static inline unsigned step_again(const uint8_t *b, struct view v, const uint8_t partners[4], size_t k, unsigned row)
{
    size_t place = edge_place[v.first[k]];
    unsigned passed, u = walk_to(b, v, k, row, partners[place], &passed);
    return serves(v, u) ? get(b, u, EDGE + place) : (unsigned)EMPTY;
}

#endif

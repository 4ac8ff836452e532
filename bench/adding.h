/* An addition, for the twin, with the view given: who adds one letter chooses the table of partners with it, who adds many
 * chooses it once. It is a header so that either gets the code in its own place. */
#ifndef BENCH_ADDING_H
#define BENCH_ADDING_H

#include "links.h"
#include "twin.h"

/* A palindrome comes: one more has its length, which may be the largest now. */
static inline void count_in(uint8_t *b, unsigned stored)
{
    put(b, stored, CARRIED, get(b, stored, CARRIED) + 1);
    if (longest_of(b) < stored - 1)
        set_longest(b, stored - 1);
}

/* The palindrome that d makes around row u stood nowhere: writes its row, the first free one. */
static inline unsigned hang(uint8_t *b, struct view v, unsigned u, uint8_t d)
{
    unsigned count = count_of(b), row = get(b, count + 2, ORDER), stored = get(b, u, LENGTH) + 2;
    unsigned link = u == IMAGINARY ? (unsigned)EMPTY : step(b, v, size_of(b), get(b, u, LINK), d);
    put(b, row, LENGTH, stored);
    put(b, row, LINK, link);
    put(b, row, INNER, u);
    put(b, row, OUTER, d);
    put_edge(b, u, d, row);
    put(b, 0, 10, count + 1);
    count_in(b, stored);
    return row;
}

/* An addition at a side, through the view towards it. */
static inline uint64_t add_in(uint8_t *b, struct view v, enum side side, uint8_t letter)
{
    unsigned n = size_of(b);
    uint8_t d = v.seen_as[letter];
    unsigned passed, u = walk_counted(b, v, n, end_row(b, side), d, &passed), row = made(b, v, u, d);
    bool is_new = row == 0;
    if (is_new)
        row = hang(b, v, u, d);
    uint8_t *w = b + (letters_of(b) - b);
    if (side == LEFT)
        memmove(w + 1, w, n);
    w[side == LEFT ? 0 : n] = letter;
    put(b, 0, 9, n + 1);
    set_end_row(b, side, row);
    if (get(b, row, LENGTH) == n + 2)
        set_end_row(b, side == LEFT ? RIGHT : LEFT, row);
    return answer(is_new, is_new ? row : 0, side == RIGHT && !v.inverted ? passed : 0, 0);
}

#endif

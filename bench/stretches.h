/* The row of a stretch of the letters, for the twin: its mirror image in the longest palindrome at its end, and from the row at
 * the end of that down the links, with jumps past many of them. */
#ifndef BENCH_STRETCHES_H
#define BENCH_STRETCHES_H

#include "links.h"

/* For each right end the row of the longest palindrome there, and for each row one further down its chain. */
struct stretches {
    uint16_t ends[1024], jumps[ROWS_MOST];
};

/* Where a row's jump goes: past its link's jump and that one's where both go equally far down, and else to the link. So a way
 * down a chain has a number of steps in the order of the logarithm of its length. */
static inline unsigned jump_of(const struct stretches *s, const uint16_t *depths, unsigned link)
{
    unsigned far = s->jumps[link], further = s->jumps[far];
    return depths[link] - depths[far] == depths[far] - depths[further] ? further : link;
}

/* One reading of the letters. A row is met before any that links to it. */
static inline void find_ends(const uint8_t *b, struct stretches *s)
{
    uint16_t depths[ROWS_MOST];
    unsigned n = size_of(b), row = EMPTY;
    struct view v = view_of(b, RIGHT);
    const uint8_t *partners = letter_partners[reading_of(b)];
    depths[IMAGINARY] = depths[EMPTY] = s->jumps[IMAGINARY] = s->jumps[EMPTY] = 0;
    for (unsigned k = 0; k < n; k++) {
        row = step_again(b, v, partners, k, row);
        s->ends[k] = (uint16_t)row;
        if (row <= EMPTY)
            continue;
        unsigned link = get(b, row, LINK);
        depths[row] = depths[link] + 1;
        s->jumps[row] = (uint16_t)jump_of(s, depths, link);
    }
}

/* The row of n letters that end at `end`, from the row there down, and 0 where they are no palindrome; and after how many steps.
 * LENGTH is stored plus one. */
static inline unsigned row_by_jumps(const uint8_t *b, const struct stretches *s, unsigned n, unsigned end, unsigned *steps)
{
    unsigned row = s->ends[end - 1], stored = get(b, row, LENGTH);
    for (*steps = 0; stored > n + 1; ++*steps) {
        unsigned far = s->jumps[row];
        row = get(b, far, LENGTH) > n ? far : get(b, row, LINK);
        stored = get(b, row, LENGTH);
    }
    return stored == n + 1 ? row : (unsigned)IMAGINARY;
}

/* The same for the letters from `start` up to `end`. They stand at the front of the longest palindrome at their end too, if they are
 * one, and often that is the longest which ends there. */
static inline unsigned row_of_stretch(const uint8_t *b, const struct stretches *s, unsigned start, unsigned end, unsigned *steps)
{
    unsigned n = end - start, longest = get(b, s->ends[end - 1], LENGTH) - 1;
    *steps = 0;
    return longest < n ? (unsigned)IMAGINARY : row_by_jumps(b, s, n, end - longest + n, steps);
}

#endif

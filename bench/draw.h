/* Drawings of numbers against letters, for each word. */
#ifndef BENCH_DRAW_H
#define BENCH_DRAW_H

#include <stdio.h>

#include "words.h"

/* A line that bounds the numbers: so many for each letter, less so many; without a name it is not drawn. */
struct bound {
    const char *name;
    int each, less;
};

/* One panel: the numbers of the first words that are cut into pieces, WORDS of them or all, at equal steps up to DRAWN letters, and
 * the bound beside them. */
enum { DRAWN = 1000, MOST_POINTS = 40 };
struct panel {
    const char *title;
    int words, points;
    struct bound bound;
    double at[CUT_WORDS][MOST_POINTS];
};
void draw(FILE *out, const struct panel *panels, int count);

#endif

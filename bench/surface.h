/* A double-ended eertree by surface recording, as the source paper gives it: additions and removals at either end in
 * constant time for four letters, with no test of anything. It is no twin: it keeps other data, works in memory of its
 * own, and shows what the lent store and its test, which reads every letter, cost beside the best known method. */
#ifndef BENCH_SURFACE_H
#define BENCH_SURFACE_H

#include <stdbool.h>
#include <stdint.h>

#include "cells.h"

enum { NODES = 1026, PLACES = 4096 };

struct node {
    int length, link, inner, letter;
    int next[4], direct[4];
    int links_in, count;
};

/* Letters and surfaces stand in rings: `start` is the place of the first letter, `end` that behind the last. Entry i
 * of surface[LEFT] is the node of the surface that begins at place i, of surface[RIGHT] of the one that ends there;
 * the empty string's node where there is none. */
struct surfaces {
    struct node node[NODES];
    int surface[2][PLACES];
    uint8_t letter[PLACES];
    unsigned start, end;
    int free, fresh, stand;
};

void surfaces_open(struct surfaces *s);
/* Whether a palindrome is new. */
bool surfaces_add(struct surfaces *s, enum side side, uint8_t letter);
/* Whether a palindrome went; the record must not be empty. */
bool surfaces_remove(struct surfaces *s, enum side side);
/* The length of the longest palindrome at a side of a record that is not empty. */
int surfaces_longest(const struct surfaces *s, enum side side);

#endif

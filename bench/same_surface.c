/* Whether surface recording finds the library's palindromes: the same additions and removals at both ends go through
 * both, and what comes in, what goes, the count and the longest at each end must agree. */
#include <stdio.h>

#include "../include/mirror.h"
#include "surface.h"
#include "words.h"

enum { CAPACITY = 200, STEPS = 20000, STORE = 48 * CAPACITY + 256 };

static uint8_t store[STORE];
static struct surfaces other;

static int end_length(bool left)
{
    uint64_t at = left ? mirror_longest_left(store, STORE) : mirror_longest_right(store, STORE);
    return mirror_signed_first(mirror_row(store, STORE, mirror_row_of(at)));
}

/* Whether both still say the same of a record. */
static bool agree(void)
{
    if (mirror_first(mirror_count(store, STORE)) != (unsigned)other.stand)
        return false;
    if (mirror_first(mirror_length(store, STORE)) == 0)
        return other.start == other.end;
    return end_length(true) == surfaces_longest(&other, LEFT) && end_length(false) == surfaces_longest(&other, RIGHT);
}

/* One change at a side; whether both answered alike. */
static bool change(enum side side, bool adds, uint8_t letter)
{
    uint64_t ours;
    bool theirs;
    if (adds) {
        ours = side == LEFT ? mirror_add_left(store, STORE, letter) : mirror_add_right(store, STORE, letter);
        theirs = surfaces_add(&other, side, letter);
    } else {
        ours = side == LEFT ? mirror_remove_left(store, STORE) : mirror_remove_right(store, STORE);
        theirs = surfaces_remove(&other, side);
    }
    return mirror_refusal(ours) == 0 && mirror_flag(ours) == theirs && agree();
}

static bool sitting(uint32_t seed, unsigned letters)
{
    mirror_open(store, STORE, CAPACITY);
    surfaces_open(&other);
    unsigned n = 0;
    for (int i = 0; i < STEPS; i++) {
        uint32_t r = next_random(&seed) >> 8;
        bool adds = n == 0 || (n < CAPACITY && r % 8 < (i / 500 % 2 ? 3 : 5));
        n += adds ? 1 : -1u;
        if (!change(r / 8 % 2 ? LEFT : RIGHT, adds, (uint8_t)"ACGT"[r / 16 % letters]))
            return false;
    }
    return true;
}

int main(void)
{
    for (unsigned letters = 1; letters <= 4; letters++)
        if (!sitting(letters, letters)) {
            printf("bench/same_surface: differs with %u letters\n", letters);
            return 1;
        }
    printf("bench/same_surface: %d changes gave the same palindromes\n", 4 * STEPS);
    return 0;
}

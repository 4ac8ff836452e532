/* Numbers that look random and follow from a seed, so that every run can be made again. */
#ifndef RANDOM_H
#define RANDOM_H
#include <stdint.h>

/* The seed given by hand, a number, or the one that the gate runs. */
void random_seed(const char *by_hand, uint64_t otherwise);
/* The next number from 0 up to, and not including, the given one. */
unsigned random_below(unsigned below);
#endif

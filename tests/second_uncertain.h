/* A second program for texts of uncertain bases, 02 (xii), which shares nothing with the library: a code is the list of its bases, no
 * set is a number, and none is counted. What it asks of two places is whether the bases chosen there can differ, or can agree. */
#ifndef SECOND_UNCERTAIN_H
#define SECOND_UNCERTAIN_H
#include <stddef.h>
#include <stdint.h>

enum { MOST_CODES = 1024, MOST_CHOSEN = 12 };

/* A stretch, and the longest two of a text, each at its leftmost place; no code long in an empty text. */
typedef struct { size_t start, length; } second_stretch;
typedef struct { second_stretch some, every; } second_longest;

/* The bases that a byte stands for, as letters; NULL where it is no code. */
const char *second_bases(uint8_t byte);
/* The refusal number of a text, 0 where it is good. */
unsigned second_refusal(const uint8_t *text, size_t length);
/* The longest stretches of up to MOST_CHOSEN codes: every choice is made, and every stretch of the chosen word is held against its own
 * reversal. */
second_longest second_by_choices(const uint8_t *text, size_t n);
/* The longest stretches of up to MOST_CODES codes, from the shortest stretches to the longest. */
second_longest second_by_stretches(const uint8_t *text, size_t n);
/* What a call must answer of these. */
uint64_t second_answer(second_longest of);
/* What a call must answer to any text; the lengths are those of every stretch. */
uint64_t second_uncertain(const uint8_t *text, size_t length);
#endif

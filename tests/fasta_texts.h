/* FASTA texts that are good, texts that random slips made of good ones, and texts in capitals. */
#ifndef FASTA_TEXTS_H
#define FASTA_TEXTS_H
#include <stddef.h>
#include <stdint.h>

enum { SLIP_ROOM = 64 }; /* the most bytes by which one slip makes a text longer */

/* Every text follows from the seed. */
void fasta_seed(uint64_t seed);
/* A number below the given one. */
unsigned fasta_next(unsigned below);
/* A good text of at most 4,096 bytes, or one with a few letters over 1,024; its length. */
size_t fasta_good(uint8_t *text);
/* Writes the text with its later lines in capitals. */
void fasta_capitals(uint8_t *to, const uint8_t *text, size_t length);
/* One slip in a text that has SLIP_ROOM bytes to grow; its new length. */
size_t fasta_slip(uint8_t *text, size_t length);
#endif

/* The words that the benchmark runs on: the ordinary case and four that are hard for palindromes, for either reading. */
#ifndef BENCH_WORDS_H
#define BENCH_WORDS_H

#include <stddef.h>
#include <stdint.h>

/* First the words of plain records, then in the same order those of inverted ones. Then a plain one that is only there to be
 * timed beside random DNA in an inverted record, one that is only there to be cut into pieces, and last one that is only there to
 * have sheets marked: see words.c. */
enum { RANDOM, ALL_A, AC, FIBONACCI, THUE_MORSE, WORDS, BOTH_WORDS = 2 * WORDS, SPARSE = BOTH_WORDS, GTA, ACA, ALL_WORDS };
extern const char *const word_names[ALL_WORDS];

/* The words that are cut into pieces: those of plain records, and GTA..A. */
enum { CUT_WORDS = WORDS + 1 };
static inline int cut_word(int w) { return w < WORDS ? w : (int)GTA; }

/* The reading that a word is made for: 0 for plain, 1 for inverted. */
static inline int word_reading(int word) { return word >= WORDS && word < BOTH_WORDS; }

/* The word of plain records that has, at 1,000 letters, as many rows as an inverted record of word WORDS + w. */
static inline int plain_match(int w) { return w == RANDOM ? (int)SPARSE : w; }

/* Writes the first n letters of a word. */
void make_word(int which, uint8_t *out, size_t n);

/* Writes a FASTA text of n letters of a word, at most FASTA_MOST, in lines of 60; its length, which is below 2n + 6. */
enum { FASTA_LINE = 60, FASTA_MOST = 1024 };
size_t make_fasta(int which, uint8_t *out, size_t n);

/* Makes about half of the letters of such a text small, by chance: no real mask is harder to foresee. */
void mask_fasta(uint8_t *text, size_t length);

/* The next number of a sequence that is the same in every run. */
uint32_t next_random(uint32_t *state);

#endif

/* The twin: the library's calls written again in C, over the same store, with the same test and the same work, so
 * that the benchmark can say what the library costs beside plain C. bench/same.c checks that answers and bytes agree.
 *
 * twin_X is mirror_X of include/mirror.h. The bare_X rely on a good store and do no test. */
#ifndef BENCH_TWIN_H
#define BENCH_TWIN_H

#include <stdbool.h>
#include <stddef.h>
#include <stdint.h>

#include "cells.h"

/* What is known of an end once the letters are read: the row of the longest palindrome there without the end's own letter, and
 * whether the longest there stands without that letter too. A removal and a question about the end need no more. */
struct reach {
    unsigned shorter;
    bool again;
};

bool twin_is_good(const uint8_t *store, size_t length);
/* The same test; of a good store it also tells what it read at either end. */
bool twin_examine(const uint8_t *store, size_t length, struct reach reach[2]);
/* Whether the list and the marks take this identifier. */
bool twin_is_identifier(const uint8_t *name, size_t length);

uint64_t twin_open(uint8_t *store, size_t length, uint64_t capacity);
uint64_t twin_open_inverted(uint8_t *store, size_t length, uint64_t capacity);
uint64_t twin_add_left(uint8_t *store, size_t length, uint64_t letter);
uint64_t twin_add_right(uint8_t *store, size_t length, uint64_t letter);
uint64_t twin_remove_left(uint8_t *store, size_t length);
uint64_t twin_remove_right(uint8_t *store, size_t length);
uint64_t twin_turn_plain(uint8_t *store, size_t length);
uint64_t twin_turn_inverted(uint8_t *store, size_t length);
uint64_t twin_length(const uint8_t *store, size_t length);
uint64_t twin_count(const uint8_t *store, size_t length);
uint64_t twin_longest(const uint8_t *store, size_t length);
uint64_t twin_longest_length(const uint8_t *store, size_t length);
uint64_t twin_longest_left(const uint8_t *store, size_t length);
uint64_t twin_longest_right(const uint8_t *store, size_t length);
uint64_t twin_letter(const uint8_t *store, size_t length, uint64_t place);
uint64_t twin_row(const uint8_t *store, size_t length, uint64_t row);
uint64_t twin_frequency(const uint8_t *store, size_t length, uint64_t row);
uint64_t twin_occurrences(const uint8_t *store, size_t length);
uint64_t twin_spell(const uint8_t *store, size_t length, uint64_t row, uint8_t *out, size_t out_length);
/* Spelling as a C programmer would write it who is free to: no recursion. */
uint64_t twin_spell_by_loop(const uint8_t *store, size_t length, uint64_t row, uint8_t *out, size_t out_length);
uint64_t twin_find(const uint8_t *store, size_t length, const uint8_t *piece, size_t piece_length);
uint64_t twin_list(const uint8_t *store, size_t length, const uint8_t *identifier, size_t identifier_length,
                   uint8_t *scratch, size_t scratch_length, uint8_t *out, size_t out_length);
uint64_t twin_genbank(const uint8_t *store, size_t length, uint8_t *out, size_t out_length);
uint64_t twin_minimal_unique(const uint8_t *store, size_t length, uint8_t *out, size_t out_length);
uint64_t twin_pieces(const uint8_t *store, size_t length, uint8_t *out, size_t out_length);
uint64_t twin_mark(const uint8_t *store, size_t length, const uint8_t *identifier, size_t identifier_length, const uint8_t *sheet,
                   size_t sheet_length, uint8_t *marks, size_t marks_length);
/* Marking as a C programmer would write it who is free to: each byte of the sheet is looked at once. */
uint64_t twin_mark_at_once(const uint8_t *store, size_t length, const uint8_t *identifier, size_t identifier_length,
                           const uint8_t *sheet, size_t sheet_length, uint8_t *marks, size_t marks_length);

void bare_open(uint8_t *store, size_t capacity, enum reading reading);
uint64_t bare_add(uint8_t *store, enum side side, uint8_t letter);
uint64_t bare_remove(uint8_t *store, enum side side, struct reach reach);
/* Letters and capacity stay, and the rows are those of the letters added at the right of a record opened in this reading;
 * nothing is written where that is the reading already. */
void bare_turn(uint8_t *store, enum reading reading);
size_t bare_list(const uint8_t *store, const uint8_t *name, size_t name_length, uint8_t *scratch, uint8_t *out);
/* Reads a sheet's lines, each byte once, and does nothing with them but to add up their numbers and how many have the identifier,
 * so that none is left unread; 0 where some bytes are no line. */
uint64_t bare_read(const uint8_t *name, size_t name_length, const uint8_t *sheet, size_t length);

/* Opens a plain record of the largest capacity and adds each letter at the right, with no test of the store. */
uint64_t twin_fill(uint8_t *store, size_t length, const uint8_t *letters, size_t n);

static inline uint64_t answer(bool flag, unsigned row, unsigned first, unsigned second)
{
    return (uint64_t)flag << 8 | (uint64_t)row << 16 | (uint64_t)first << 32 | (uint64_t)second << 48;
}

/* Reading a FASTA text, which takes no store. */
uint64_t twin_fasta(const uint8_t *text, size_t length, uint8_t *out, size_t out_length);

/* The two lengths of a text of codes, which take no store either; and how many pairs of places that compares, 0 where the text is
 * refused. */
uint64_t twin_uncertain(const uint8_t *text, size_t length);
size_t twin_uncertain_pairs(const uint8_t *text, size_t length);

#endif

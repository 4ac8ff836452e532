/* The store's layout as a C programmer would read it (docs/LAYOUT.md): cells of two bytes, twelve to a row of the
 * table, then the letters. Loads and stores are 16 bits wide, on a machine that keeps the low byte first.
 *
 * The twin shares no line with the library. It exists to say what the same work costs in C. */
#ifndef BENCH_CELLS_H
#define BENCH_CELLS_H

#include <stdbool.h>
#include <stddef.h>
#include <stdint.h>
#include <string.h>

/* CARRIED of row k + 1 says how many palindromes have length k, and of row 1 how long the longest is. LENGTH is stored plus
 * one, so that it is the row beside which a palindrome is counted. */
enum { LENGTH = 0, LINK = 1, INNER = 2, OUTER = 3, EDGE = 4, ORDER = 8, RANK = 9, CARRIED = 10 };
enum { ROW_BYTES = 24, IMAGINARY = 0, EMPTY = 1, ROWS_MOST = 1026 };
enum side { LEFT, RIGHT };
enum reading { PLAIN, INVERTED };

/* Which bytes are letters, and where a letter's edge stands among the four of a row. */
static const uint8_t letter_table[256] = {['A'] = 1, ['C'] = 1, ['G'] = 1, ['T'] = 1};
static const uint8_t edge_place[256] = {['A'] = 0, ['C'] = 1, ['G'] = 2, ['T'] = 3};

/* The letter that must face a letter, in a plain and in an inverted record. Only letters that were tested are looked up. */
static const uint8_t partner_tables[2][256] = {
    [PLAIN] = {['A'] = 'A', ['C'] = 'C', ['G'] = 'G', ['T'] = 'T'},
    [INVERTED] = {['A'] = 'T', ['C'] = 'G', ['G'] = 'C', ['T'] = 'A'},
};

/* The same for the four letters alone, in the order of a row's edges. */
static const uint8_t letter_partners[2][4] = {[PLAIN] = {'A', 'C', 'G', 'T'}, [INVERTED] = {'T', 'G', 'C', 'A'}};

static inline unsigned get(const uint8_t *b, size_t row, size_t cell)
{
    uint16_t v;
    memcpy(&v, b + ROW_BYTES * row + 2 * cell, sizeof v);
    return v;
}

static inline void put(uint8_t *b, size_t row, size_t cell, unsigned v)
{
    uint16_t narrow = (uint16_t)v;
    memcpy(b + ROW_BYTES * row + 2 * cell, &narrow, sizeof narrow);
}

static inline unsigned capacity_of(const uint8_t *b) { return get(b, 0, 8); }
static inline unsigned size_of(const uint8_t *b) { return get(b, 0, 9); }
static inline unsigned count_of(const uint8_t *b) { return get(b, 0, 10); }
static inline unsigned reading_of(const uint8_t *b) { return get(b, 0, 11); }
static inline unsigned longest_of(const uint8_t *b) { return get(b, 1, CARRIED); }
static inline void set_longest(uint8_t *b, unsigned length) { put(b, 1, CARRIED, length); }
static inline unsigned end_row(const uint8_t *b, enum side side) { return get(b, 1, side == LEFT ? 8 : 9); }
static inline void set_end_row(uint8_t *b, enum side side, unsigned r) { put(b, 1, side == LEFT ? 8 : 9, r); }

static inline const uint8_t *letters_of(const uint8_t *b) { return b + ROW_BYTES * ((size_t)capacity_of(b) + 2); }
/* Chosen once for each call: no comparison asks for the reading again. */
static inline const uint8_t *partners_of(const uint8_t *b) { return partner_tables[reading_of(b)]; }

/* Whether a number is that of a palindrome's row, and whether it is that or a root's. */
static inline bool holds_palindrome(const uint8_t *b, uint64_t row)
{
    return row > EMPTY && row < (uint64_t)capacity_of(b) + 2 && get(b, row, RANK) < count_of(b);
}

static inline bool row_used(const uint8_t *b, uint64_t row) { return row <= EMPTY || holds_palindrome(b, row); }

static inline unsigned edge_of(const uint8_t *b, size_t row, uint8_t letter)
{
    return get(b, row, (size_t)EDGE + edge_place[letter]);
}

static inline void put_edge(uint8_t *b, size_t row, uint8_t letter, unsigned to)
{
    put(b, row, (size_t)EDGE + edge_place[letter], to);
}

#endif

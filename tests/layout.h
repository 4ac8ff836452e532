/* The store's bytes by docs/LAYOUT.md, for the tests that look into a store, and by docs/HOST.md the list's scratch and the bytes of
 * a list of minimal unique repeats, of pieces and of marks: nothing here comes from the library or its header. */
#ifndef LAYOUT_H
#define LAYOUT_H
#include <stddef.h>
#include <stdint.h>

enum { LAYOUT_MOST = 1024, ROW_BYTES = 24, ROW_CELLS = 12 };
/* CELL_CARRIED of row k + 1, from row 2 on, holds how many repeats have length k */
enum { CELL_LENGTH, CELL_LINK, CELL_INNER, CELL_OUTER, CELL_EDGES, CELL_ORDER = 8, CELL_RANK, CELL_CARRIED, CELL_UNUSED };
/* the header's cells: capacity to reading in row 0, both ends and the largest length in row 1, where CELL_UNUSED is free too */
enum { CELL_CAPACITY = 8, CELL_SIZE, CELL_COUNT, CELL_READING };
enum { CELL_LEFT = 8, CELL_RIGHT, CELL_LARGEST };

static inline unsigned layout_cell(const uint8_t *store, size_t row, size_t cell)
{
    const uint8_t *at = store + ROW_BYTES * row + 2 * cell;
    return at[0] + 256u * at[1];
}

/* a number in two bytes, low byte first */
static inline void layout_number(uint8_t *at, size_t number)
{
    at[0] = (uint8_t)number;
    at[1] = (uint8_t)(number >> 8);
}

static inline void layout_put(uint8_t *store, size_t row, size_t cell, unsigned value)
{
    layout_number(store + ROW_BYTES * row + 2 * cell, value);
}

static inline size_t layout_letters(size_t capacity)
{
    return ROW_BYTES * (capacity + 2);
}

/* how many bytes mean something */
static inline size_t layout_used(size_t capacity)
{
    return 25 * capacity + 48;
}

static inline size_t layout_size(size_t capacity)
{
    return 48 * capacity + 256;
}

/* the scratch of a list: a bit for each letter, and what is left over fills a byte of its own */
static inline size_t layout_scratch(size_t letters)
{
    return letters / 8 + (letters % 8 > 0);
}

enum { STRETCH_BYTES = 4, PIECE_BYTES = 2, MARKS_BYTES = 32 };

/* the i-th stretch of a list of minimal unique repeats: its start and its end */
static inline void layout_stretch(uint8_t *out, size_t i, size_t start, size_t end)
{
    layout_number(out + STRETCH_BYTES * i, start);
    layout_number(out + STRETCH_BYTES * i + 2, end);
}

/* n pieces of a record: where each ends; how many bytes that takes */
static inline size_t layout_pieces(uint8_t *out, const size_t *ends, size_t n)
{
    for (size_t i = 0; i < n; i++) layout_number(out + PIECE_BYTES * i, ends[i]);
    return PIECE_BYTES * n;
}
#endif

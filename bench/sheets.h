/* The sheets that are timed, for a record of some letters. */
#ifndef BENCH_SHEETS_H
#define BENCH_SHEETS_H

#include "calls.h"

/* The record's own list; 1,000 lines that name one letter, each the next place or all the last one; stretches drawn by chance; the
 * 1,000 longest stretches, from the whole record on; and 1,000 lines that name the stretch whose row takes the most steps to find. */
enum { SHEET_OWN, SHEET_EACH_LETTER, SHEET_LAST_LETTER, SHEET_RANDOM, SHEET_LONGEST, SHEET_FARTHEST, SHEETS };
extern const char *const sheet_names[SHEETS];

enum { FEW_LINES = 1000, RANDOM_LINES = 10000, LINES_MOST = 100000, SHEET_MOST = LINES_MOST * LINE_MOST };

/* Writes a sheet for a good store, with at least one letter where it has a line; its length. The sheet of stretches drawn by chance
 * has RANDOM_LINES lines. */
size_t make_sheet(int which, const uint8_t *store, uint8_t *out);

/* Writes so many stretches drawn by chance, each as likely as any other; the length of the sheet. */
size_t draw_sheet(const uint8_t *store, size_t lines, uint8_t *out);

/* How many steps it takes to find the row of each stretch of a store, from one row to the next: the most and where, and all together;
 * by links alone, by jumps, and by jumps from the mirror image, as the calls go. */
enum { BY_LINKS, BY_JUMPS, BY_IMAGE, STEP_WAYS };
struct steps {
    unsigned most, start, end;
    uint64_t all;
};
struct steps count_steps(const uint8_t *store, int way);

#endif

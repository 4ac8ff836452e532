/* Sheets with so many lines that marking them is all the work, and the ways to the row of a stretch, counted. */
#include "sheets.h"

#include <stdio.h>

#include "stretches.h"
#include "twin.h"
#include "words.h"

const char *const sheet_names[SHEETS] = {"own list", "each letter", "last letter", "10000 random", "1000 longest", "farthest"};

static uint8_t *put_line(uint8_t *at, unsigned start, unsigned end)
{
    return at + sprintf((char *)at, IDENTIFIER "\t%u\t%u\n", start, end);
}

/* The same line so many times. */
static uint8_t *put_lines(uint8_t *at, size_t lines, unsigned start, unsigned end)
{
    for (size_t i = 0; i < lines; i++)
        at = put_line(at, start, end);
    return at;
}

static uint8_t *each_letter(uint8_t *at, unsigned n)
{
    for (unsigned i = 0; i < FEW_LINES; i++)
        at = put_line(at, i % n, i % n + 1);
    return at;
}

/* From the whole record on, as long as there are lines left. */
static uint8_t *longest_stretches(uint8_t *at, unsigned n)
{
    unsigned lines = 0;
    for (unsigned length = n; length > 0; length--)
        for (unsigned start = 0; start + length <= n && lines < FEW_LINES; start++, lines++)
            at = put_line(at, start, start + length);
    return at;
}

static uint8_t *farthest(uint8_t *at, const uint8_t *store)
{
    struct steps steps = count_steps(store, BY_IMAGE);
    return put_lines(at, FEW_LINES, steps.start, steps.end);
}

size_t draw_sheet(const uint8_t *store, size_t lines, uint8_t *out)
{
    uint32_t seed = 20261118;
    unsigned n = size_of(store);
    uint8_t *at = out;
    while (lines > 0) {
        unsigned one = (next_random(&seed) >> 8) % (n + 1), other = (next_random(&seed) >> 8) % (n + 1);
        if (one == other)
            continue;
        at = put_line(at, one < other ? one : other, one < other ? other : one);
        lines--;
    }
    return (size_t)(at - out);
}

size_t make_sheet(int which, const uint8_t *store, uint8_t *out)
{
    uint8_t scratch[MIRROR_LIST_SCRATCH(CAPACITY_MOST)];
    unsigned n = size_of(store);
    switch (which) {
    case SHEET_EACH_LETTER: return (size_t)(each_letter(out, n) - out);
    case SHEET_LAST_LETTER: return (size_t)(put_lines(out, FEW_LINES, n - 1, n) - out);
    case SHEET_RANDOM: return draw_sheet(store, RANDOM_LINES, out);
    case SHEET_LONGEST: return (size_t)(longest_stretches(out, n) - out);
    case SHEET_FARTHEST: return (size_t)(farthest(out, store) - out);
    default: return bare_list(store, NAME, scratch, out);
    }
}

static unsigned steps_of(const uint8_t *b, const struct stretches *s, int way, unsigned start, unsigned end)
{
    unsigned steps = 0, n = end - start;
    if (way == BY_IMAGE)
        row_of_stretch(b, s, start, end, &steps);
    else if (way == BY_JUMPS)
        row_by_jumps(b, s, n, end, &steps);
    else
        for (unsigned row = s->ends[end - 1]; get(b, row, LENGTH) > n + 1; row = get(b, row, LINK))
            steps++;
    return steps;
}

struct steps count_steps(const uint8_t *store, int way)
{
    struct stretches s;
    struct steps told = {.most = 0, .start = 0, .end = 1};
    find_ends(store, &s);
    for (unsigned end = 1; end <= size_of(store); end++)
        for (unsigned start = 0; start < end; start++) {
            unsigned steps = steps_of(store, &s, way, start, end);
            told.all += steps;
            if (steps > told.most)
                told.most = steps, told.start = start, told.end = end;
        }
    return told;
}

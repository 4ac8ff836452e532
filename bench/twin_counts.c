/* The twin's questions of how often palindromes stand: one row's, and all of them counted by place. Each is one reading of the
 * letters after the test. A row's link is met before the row itself, so what is asked of a row is known of its link by then. */
#include "links.h"
#include "twin.h"

/* How often the wanted row's palindrome stands: at the right ends at which it is the longest or ends the longest. The empty string
 * is ended by none, as its link, the imaginary one, is. */
static unsigned frequency_of(const uint8_t *b, unsigned wanted)
{
    uint8_t ended_by[ROWS_MOST] = {0};
    unsigned n = size_of(b), row = EMPTY, total = 0;
    struct view v = view_of(b, RIGHT);
    const uint8_t *partners = letter_partners[reading_of(b)];
    ended_by[wanted] = 1;
    for (unsigned k = 0; k < n; k++) {
        row = step_again(b, v, partners, k, row);
        ended_by[row] |= ended_by[get(b, row, LINK)];
        total += ended_by[row];
    }
    return total;
}

uint64_t twin_frequency(const uint8_t *store, size_t length, uint64_t row)
{
    if (!twin_is_good(store, length))
        return 3;
    if (!holds_palindrome(store, row))
        return 7;
    return answer(false, 0, frequency_of(store, (unsigned)row), 0);
}

/* What a reading of the letters notes: at how many right ends each row is the longest one's, the rows in the order in which
 * they are met, and how many palindromes end at the right ends, all together. */
struct census {
    uint16_t longest[ROWS_MOST], met[1024];
    unsigned rows;
    uint32_t by_ends;
};

/* As many palindromes end at a right end as links lead from the longest there to the empty string. That is none itself: it
 * counts as met, so that it is not noted. */
static void read_ends(const uint8_t *b, struct census *c)
{
    uint16_t chain[ROWS_MOST];
    unsigned n = size_of(b), row = EMPTY;
    struct view v = view_of(b, RIGHT);
    const uint8_t *partners = letter_partners[reading_of(b)];
    memset(c->longest, 0, sizeof c->longest);
    c->rows = c->by_ends = 0;
    c->longest[EMPTY] = 1;
    chain[EMPTY] = 0;
    for (unsigned k = 0; k < n; k++) {
        row = step_again(b, v, partners, k, row);
        if (c->longest[row]++ == 0) {
            chain[row] = chain[get(b, row, LINK)] + 1;
            c->met[c->rows++] = (uint16_t)row;
        }
        c->by_ends += chain[row];
    }
}

/* The sum of the frequencies. Backwards in the order of meeting, a row has its whole number before it is added to its link's; what
 * comes to the empty string is of no account. */
static uint32_t sum_rows(const uint8_t *b, struct census *c)
{
    uint32_t total = 0;
    while (c->rows > 0) {
        unsigned row = c->met[--c->rows], frequency = c->longest[row];
        total += frequency;
        c->longest[get(b, row, LINK)] += frequency;
    }
    return total;
}

uint64_t twin_occurrences(const uint8_t *store, size_t length)
{
    struct census c;
    if (!twin_is_good(store, length))
        return 3;
    read_ends(store, &c);
    return (uint64_t)sum_rows(store, &c) << 16 | (uint64_t)c.by_ends << 40;
}

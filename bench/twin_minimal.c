/* The twin's minimal unique palindromes, by where they stand: one reading of the letters after the test. Where a palindrome is
 * first met it is the longest at the right end; where it stands again it is the longest too, or it ends a longer one, and then the
 * link of some row leads to it. So one that is met once and to which no link leads stands once, and nothing need be counted. */
#include "links.h"
#include "twin.h"

/* How often a row's palindrome stands in what is read. A root's counts as standing again: so it is never noted, and may always lie
 * inside. */
enum { NOWHERE, ONCE, AGAIN };

/* The rows in the order in which they are met, which is that of their right ends. */
struct meetings {
    uint8_t stands[ROWS_MOST];
    uint16_t rows[1024], ends[1024];
    unsigned count;
};

static inline void note(struct meetings *m, unsigned row, unsigned end)
{
    m->rows[m->count] = (uint16_t)row;
    m->ends[m->count++] = (uint16_t)end;
}

static void meet_rows(const uint8_t *b, struct meetings *m)
{
    unsigned n = size_of(b), row = EMPTY;
    struct view v = view_of(b, RIGHT);
    const uint8_t *partners = letter_partners[reading_of(b)];
    memset(m->stands, NOWHERE, sizeof m->stands);
    m->stands[IMAGINARY] = m->stands[EMPTY] = AGAIN;
    m->count = 0;
    for (unsigned k = 0; k < n; k++) {
        row = step_again(b, v, partners, k, row);
        if (m->stands[row] != NOWHERE) {
            m->stands[row] = AGAIN;
            continue;
        }
        m->stands[row] = ONCE;
        m->stands[get(b, row, LINK)] = AGAIN;
        note(m, row, k + 1);
    }
}

/* Leaves of the rows those that stand once around one that does not. */
static void keep_minimal(const uint8_t *b, struct meetings *m)
{
    unsigned met = m->count;
    m->count = 0;
    for (unsigned i = 0; i < met; i++) {
        unsigned row = m->rows[i];
        if (m->stands[row] == ONCE && m->stands[get(b, row, INNER)] == AGAIN)
            note(m, row, m->ends[i]);
    }
}

/* A start and an end, which is one past the last letter. */
static inline void put_interval(uint8_t *at, unsigned start, unsigned end)
{
    uint16_t both[2] = {(uint16_t)start, (uint16_t)end};
    memcpy(at, both, sizeof both);
}

uint64_t twin_minimal_unique(const uint8_t *store, size_t length, uint8_t *out, size_t out_length)
{
    struct meetings m;
    if (!twin_is_good(store, length))
        return 3;
    meet_rows(store, &m);
    keep_minimal(store, &m);
    if (out_length < 4 * (size_t)m.count)
        return 9;
    for (unsigned i = 0; i < m.count; i++)
        put_interval(out + 4 * i, m.ends[i] + 1 - get(store, m.rows[i], LENGTH), m.ends[i]);
    return answer(false, 0, m.count, 0);
}

/* The twin's test of a store: it makes every decision that the library's test makes (crates/audit), for any bytes of
 * any length. Sizes first, so that nothing is read outside the store; then letters, free places and roots; then the letters
 * are read, each row tested and its length counted when it is first met; then the header's count, ends and longest; last one
 * pass over the rows. Each row met was tested, and the edge that leads to it, so that pass only counts: no more edges lead
 * anywhere, and no more rows say anything, than rows were met. */
#include "links.h"
#include "twin.h"

/* Where the reading of the letters stands: the rows of the longest palindromes at either end of those read, of the longest
 * at the right one letter earlier and of the longest at the left without the first letter; whether the one at the right
 * stood before the last letter, and whether the one at the left stands without the first. */
struct tour {
    unsigned row, before, left, second;
    bool known, again;
    unsigned met, longest;
};

static bool sized(const uint8_t *b, size_t length)
{
    if (length < 48)
        return false;
    size_t capacity = capacity_of(b);
    return capacity >= 1 && capacity <= 1024 && length >= 48 * capacity + 256 && size_of(b) <= capacity
           && reading_of(b) <= INVERTED;
}

static bool letters_right(const uint8_t *b)
{
    const uint8_t *w = letters_of(b);
    size_t n = size_of(b), capacity = capacity_of(b);
    for (size_t i = 0; i < n; i++)
        if (!letter_table[w[i]])
            return false;
    for (size_t i = n; i < capacity; i++)
        if (w[i] != 0)
            return false;
    return true;
}

/* Four cells of a row from the first or the fifth on, as one wide load. */
static inline uint64_t four_cells(const uint8_t *b, size_t row, size_t from)
{
    uint64_t four;
    memcpy(&four, b + ROW_BYTES * row + 2 * from, sizeof four);
    return four;
}

static bool roots_right(const uint8_t *b) { return four_cells(b, IMAGINARY, 0) == 0 && four_cells(b, EMPTY, 0) == 1; }

static inline bool points_back(const uint8_t *b, unsigned capacity, unsigned u, uint8_t d, unsigned q)
{
    return q >= 2 && q < capacity + 2 && get(b, q, INNER) == u && get(b, q, OUTER) == d;
}

/* A row met for the first time: its length, that it is in use, and its link. */
static inline bool row_fits(const uint8_t *b, struct view v, size_t k, unsigned u, uint8_t d, unsigned q)
{
    if (get(b, q, LENGTH) != get(b, u, LENGTH) + 2 || get(b, q, RANK) >= count_of(b))
        return false;
    unsigned link = u == IMAGINARY ? (unsigned)EMPTY : step(b, v, k, get(b, u, LINK), d);
    return get(b, q, LINK) == link;
}

/* A row that fits is counted at the row beside which the store must carry the count: its LENGTH is right, so there is one. */
static inline void count_row(const uint8_t *b, uint16_t *carried, struct tour *t, unsigned q)
{
    unsigned stored = get(b, q, LENGTH);
    carried[stored]++;
    if (t->longest < stored - 1)
        t->longest = stored - 1;
}

/* The left end at a row q that is met for the first time, of the longest palindrome that ends the k + 1 letters then read. What
 * is all letters begins them now; else what began them does. A palindrome of all letters but the first is q or, where q is all
 * letters, its link. */
static inline void left_new(const uint8_t *b, struct tour *t, size_t k, unsigned q)
{
    size_t stored = get(b, q, LENGTH);
    if (stored == k + 2) {
        unsigned link = get(b, q, LINK);
        t->left = q;
        t->again = false;
        if (get(b, link, LENGTH) == k + 1)
            t->second = link;
    } else if (stored == k + 1) {
        t->second = q;
    }
}

static bool replay(const uint8_t *b, uint8_t *marks, uint16_t *carried, struct tour *to)
{
    unsigned capacity = capacity_of(b);
    size_t n = size_of(b);
    struct view v = view_of(b, RIGHT);
    struct tour t = *to;
    for (size_t k = 0; k < n; k++) {
        uint8_t d = v.first[k];
        unsigned u = walk(b, v, k, t.row, d), q = edge_of(b, u, d);
        t.before = t.row;
        t.known = true;
        if (!serves(v, u)) {
            t.row = EMPTY;
            continue;
        }
        if (!points_back(b, capacity, u, d, q))
            return false;
        t.row = q;
        if (marks[q]) { /* neither all letters nor all but the first: the left end stays, and may stand again */
            t.again |= q == t.left;
            continue;
        }
        if (!row_fits(b, v, k, u, d, q))
            return false;
        marks[q] = 1;
        count_row(b, carried, &t, q);
        t.met++;
        t.known = false;
        left_new(b, &t, k, q);
    }
    *to = t;
    return true;
}

/* A row's place names it, so no two rows have the same place; there are as many places as rows, and the order is right. */
static inline bool row_right(const uint8_t *b, const uint16_t *carried, unsigned capacity, unsigned r)
{
    unsigned rank = get(b, r, RANK);
    return rank < capacity && get(b, rank + 2, ORDER) == r && get(b, r, CARRIED) == carried[r];
}

/* A one for each of a row's four edges that leads to a row, each in sixteen bits of its own: 1,026 rows together do not fill
 * them. */
static inline uint64_t edges_of(const uint8_t *b, unsigned r)
{
    uint64_t four = four_cells(b, r, EDGE), low = 0x7fff7fff7fff7fff;
    return (((four & low) + low) | four) >> 15 & 0x0001000100010001;
}

static bool rows_right(const uint8_t *b, const uint16_t *carried, unsigned met)
{
    unsigned capacity = capacity_of(b), said = 0;
    uint64_t edges = edges_of(b, IMAGINARY) + edges_of(b, EMPTY);
    for (unsigned r = 2; r < capacity + 2; r++) {
        if (!row_right(b, carried, capacity, r))
            return false;
        edges += edges_of(b, r);
        said += four_cells(b, r, 0) != 0;
    }
    return (edges & 0xffff) + (edges >> 16 & 0xffff) + (edges >> 32 & 0xffff) + (edges >> 48) == met && said == met;
}

bool twin_examine(const uint8_t *b, size_t length, struct reach reach[2])
{
    if (!sized(b, length) || !letters_right(b) || !roots_right(b))
        return false;
    uint8_t marks[ROWS_MOST] = {0};
    uint16_t carried[ROWS_MOST] = {0};
    struct tour t = {.row = EMPTY, .before = EMPTY, .left = EMPTY, .second = EMPTY, .known = true, .again = true};
    if (!replay(b, marks, carried, &t))
        return false;
    if (t.met != count_of(b) || t.left != end_row(b, LEFT) || t.row != end_row(b, RIGHT) || t.longest != longest_of(b))
        return false;
    reach[LEFT] = (struct reach){t.second, t.again};
    reach[RIGHT] = (struct reach){t.before, t.known};
    return rows_right(b, carried, t.met);
}

bool twin_is_good(const uint8_t *b, size_t length)
{
    struct reach reach[2];
    return twin_examine(b, length, reach);
}

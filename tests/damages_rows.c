/* Damage to rows as wholes: under other numbers, in another order, too many or too few. */
#include "damages_parts.h"
#include "random.h"

/* ---- rows under other numbers */

/* every row number in the table and at the ends, r and q exchanged */
static void rename_rows(uint8_t *store, const shown *s, unsigned r, unsigned q)
{
    exchange_cells(store, r, q, 0, 8);
    for (size_t t = 0; t < s->capacity + 2; t++)
        for (size_t f = 0; f < 8; f++)
            if (f != CELL_LENGTH && f != CELL_OUTER) layout_put(store, t, f, renamed(layout_cell(store, t, f), r, q));
    for (size_t f = CELL_LEFT; f <= CELL_RIGHT; f++) layout_put(store, 1, f, renamed(layout_cell(store, 1, f), r, q));
}

/* place i of the order and place j exchanged, with the ranks of their rows */
static void exchange_order(uint8_t *store, unsigned i, unsigned j)
{
    exchange_cells(store, i + 2, j + 2, CELL_ORDER, CELL_ORDER + 1);
    layout_put(store, layout_cell(store, i + 2, CELL_ORDER), CELL_RANK, i);
    layout_put(store, layout_cell(store, j + 2, CELL_ORDER), CELL_RANK, j);
}

int rows_renamed(uint8_t *store, size_t *length, const shown *s)
{
    (void)length;
    unsigned r = any_row(s), q = any_row(s);
    if (r == q || (!s->used[r] && !s->used[q])) return 0;
    rename_rows(store, s, r, q);
    exchange_order(store, layout_cell(store, r, CELL_RANK), layout_cell(store, q, CELL_RANK));
    return 1;
}

int renamed_in_the_table_only(uint8_t *store, size_t *length, const shown *s)
{
    (void)length;
    unsigned r = row_that_is(s, 1), q = any_row(s);
    if (r == 0 || r == q) return 0;
    rename_rows(store, s, r, q);
    return 1;
}

int rows_exchanged(uint8_t *store, size_t *length, const shown *s)
{
    (void)length;
    unsigned r = row_that_is(s, 1), q = row_that_is(s, 1);
    if (r == 0 || r == q) return 0;
    exchange_cells(store, r, q, 0, 8);
    return 1;
}

/* ---- the sparse set */

int order_permuted(uint8_t *store, size_t *length, const shown *s)
{
    (void)length;
    unsigned k = (unsigned)s->capacity, n = (unsigned)s->count;
    for (unsigned i = 0; i + 1 < n; i++) exchange_order(store, i, i + random_below(n - i));
    for (unsigned i = n; i + 1 < k; i++) exchange_order(store, i, i + random_below(k - i));
    return 1;
}

int order_without_rank(uint8_t *store, size_t *length, const shown *s)
{
    (void)length;
    unsigned r = any_row(s), q = any_row(s);
    if (r == q) return 0;
    exchange_cells(store, r, q, CELL_ORDER, CELL_ORDER + 1);
    return 1;
}

int rank_without_order(uint8_t *store, size_t *length, const shown *s)
{
    (void)length;
    unsigned r = any_row(s), q = any_row(s);
    if (r == q) return 0;
    exchange_cells(store, r, q, CELL_RANK, CELL_RANK + 1);
    return 1;
}

/* a row in use is listed as free, and a free one as in use */
int used_listed_as_free(uint8_t *store, size_t *length, const shown *s)
{
    (void)length;
    unsigned r = row_that_is(s, 1), q = row_that_is(s, 0);
    if (r == 0 || q == 0) return 0;
    exchange_order(store, layout_cell(store, r, CELL_RANK), layout_cell(store, q, CELL_RANK));
    return 1;
}

/* a row is given the rank of another, whose place names that one still */
int two_rows_of_one_rank(uint8_t *store, size_t *length, const shown *s)
{
    (void)length;
    return set_cell(store, any_row(s), CELL_RANK, layout_cell(store, any_row(s), CELL_RANK));
}

/* a place names the row of another place, whose rank is that one still */
int two_places_of_one_row(uint8_t *store, size_t *length, const shown *s)
{
    (void)length;
    return set_cell(store, any_row(s), CELL_ORDER, layout_cell(store, any_row(s), CELL_ORDER));
}

/* a row, mostly a free one, has a rank that is none, and where the place would be, behind all that is used, the row is named */
int a_rank_past_the_places(uint8_t *store, size_t *length, const shown *s)
{
    unsigned r = row_that_is(s, random_below(4) == 0), rank = (unsigned)s->capacity, least, most;
    while (ROW_BYTES * (rank + 2) + 2 * CELL_ORDER < layout_used(s->capacity)) rank++;
    least = rank, most = (unsigned)*length / ROW_BYTES - 3;
    if (r == 0 || most < least) return 0;
    if (random_below(2)) rank = least + random_below(most - least + 1);
    layout_put(store, r, CELL_RANK, rank);
    layout_put(store, rank + 2, CELL_ORDER, r);
    return 1;
}

/* ---- rows too many, too few, or of another record */

/* fills row q as the eertree would for the word around row r, and hangs it at r */
static void hang(uint8_t *store, const shown *s, unsigned q, unsigned r, int c)
{
    unsigned char word[LAYOUT_MOST + 2], letter = (unsigned char)"ACGT"[c];
    size_t m = judge_around(s, r, letter, word), link = brute_link(s->rule, word, m);
    unsigned link_row = judge_row(s, word + m - link, link);
    unsigned row[8] = {(unsigned)m + 1, link_row ? link_row : 1, r, letter, 0, 0, 0, 0};
    for (size_t f = 0; f < 8; f++) layout_put(store, q, f, row[f]);
    layout_put(store, r, CELL_EDGES + (size_t)c, q);
}

/* the carried lengths become those of the rows, or stay those of the letters */
static void lengths_follow(uint8_t *store, const shown *s)
{
    if (random_below(2)) carry_rows(store, s);
}

/* a row for a palindrome that does not stand, counted and hung as if it did */
int row_grafted(uint8_t *store, size_t *length, const shown *s)
{
    (void)length;
    unsigned r = random_below(2) ? row_that_is(s, 1) : random_below(2);
    int c = open_edge(store, r);
    if (s->count == s->capacity || c < 0) return 0;
    hang(store, s, layout_cell(store, s->count + 2, CELL_ORDER), r, c);
    layout_put(store, 0, CELL_COUNT, (unsigned)s->count + 1);
    lengths_follow(store, s);
    return 1;
}

/* a row that no row hangs from or links to; 0 where none was found */
static unsigned leaf(const uint8_t *store, const shown *s)
{
    for (int tries = 0; tries < 50; tries++) {
        unsigned r = row_that_is(s, 1);
        int bare = r != 0;
        for (size_t f = CELL_EDGES; bare && f < 8; f++) bare = layout_cell(store, r, f) == 0;
        for (unsigned q = 2; bare && q < s->capacity + 2; q++) bare = !s->used[q] || layout_cell(store, q, CELL_LINK) != r;
        if (bare) return r;
    }
    return 0;
}

/* takes a leaf out of the table, but for the sparse set and the count */
static void unhang(uint8_t *store, unsigned r)
{
    unsigned inner = layout_cell(store, r, CELL_INNER), link = layout_cell(store, r, CELL_LINK);
    for (size_t f = CELL_EDGES; f < 8; f++)
        if (layout_cell(store, inner, f) == r) layout_put(store, inner, f, 0);
    for (size_t f = CELL_LEFT; f <= CELL_RIGHT; f++)
        if (layout_cell(store, 1, f) == r) layout_put(store, 1, f, link);
    for (size_t f = 0; f < 8; f++) layout_put(store, r, f, 0);
}

/* a palindrome that stands loses its row, and all else agrees */
int row_pruned(uint8_t *store, size_t *length, const shown *s)
{
    (void)length;
    unsigned r = leaf(store, s);
    if (r == 0) return 0;
    unhang(store, r);
    exchange_order(store, layout_cell(store, r, CELL_RANK), (unsigned)s->count - 1);
    layout_put(store, 0, CELL_COUNT, (unsigned)s->count - 1);
    lengths_follow(store, s);
    return 1;
}

/* a leaf becomes the row of another palindrome, which does not stand: the count and the sparse set are right */
int leaf_grafted_elsewhere(uint8_t *store, size_t *length, const shown *s)
{
    (void)length;
    unsigned r = leaf(store, s);
    if (r == 0) return 0;
    unsigned at = random_below(2) ? row_that_is(s, 1) : random_below(2);
    int c = at == r ? -1 : open_edge(store, at);
    if (c < 0) return 0;
    unhang(store, r);
    hang(store, s, r, at, c);
    lengths_follow(store, s);
    return 1;
}

int two_rows_for_one(uint8_t *store, size_t *length, const shown *s)
{
    (void)length;
    unsigned r = row_that_is(s, 1);
    if (r == 0 || s->count == s->capacity) return 0;
    unsigned q = layout_cell(store, s->count + 2, CELL_ORDER);
    for (size_t f = 0; f < 8; f++) layout_put(store, q, f, layout_cell(store, r, f));
    layout_put(store, 0, CELL_COUNT, (unsigned)s->count + 1);
    lengths_follow(store, s);
    return 1;
}

/* Damage to single bytes and fields: a wrong number in one place, or something left in what is free. */
#include "damages_parts.h"
#include "random.h"

/* ---- single bytes and fields */

int one_byte(uint8_t *store, size_t *length, const shown *s)
{
    (void)length;
    store[random_below((unsigned)layout_used(s->capacity))] ^= (uint8_t)(1 + random_below(255));
    return 1;
}

int one_bit(uint8_t *store, size_t *length, const shown *s)
{
    (void)length;
    store[random_below((unsigned)layout_used(s->capacity))] ^= (uint8_t)(1u << random_below(8));
    return 1;
}

/* a field of a row gets a number that could stand there: a row, one more, one less, or what another row has */
int one_field(uint8_t *store, size_t *length, const shown *s)
{
    (void)length;
    size_t r = random_below((unsigned)s->capacity + 2), f = random_below(r < 2 ? 8 : 10);
    unsigned now = layout_cell(store, r, f);
    unsigned choice[4] = {random_below((unsigned)s->capacity + 3), now + 1, now - 1, layout_cell(store, any_row(s), f)};
    return set_cell(store, r, f, choice[random_below(4)] & 0xffff);
}

int header_field(uint8_t *store, size_t *length, const shown *s)
{
    (void)length;
    size_t f = CELL_CAPACITY + random_below(4);
    unsigned now = layout_cell(store, 0, f);
    unsigned choice[4] = {now + 1, now - 1, random_below((unsigned)s->capacity + 2), random_below(65536)};
    return set_cell(store, 0, f, choice[random_below(4)] & 0xffff);
}

/* the reading cell alone: the other reading of a record with letters, which has other repeats */
int other_reading_of_letters(uint8_t *store, size_t *length, const shown *s)
{
    (void)length;
    return s->size > 0 && set_cell(store, 0, CELL_READING, 1 - s->reading);
}

/* the other reading of an empty record, which is as empty */
int other_reading_of_nothing(uint8_t *store, size_t *length, const shown *s)
{
    (void)length;
    return s->size == 0 && set_cell(store, 0, CELL_READING, 1 - s->reading);
}

/* a number that is no reading; some would be one if their low byte were read alone */
int no_reading(uint8_t *store, size_t *length, const shown *s)
{
    (void)length, (void)s;
    unsigned choice[3] = {READINGS, 256 + random_below(READINGS), READINGS + random_below(65536 - READINGS)};
    return set_cell(store, 0, CELL_READING, choice[random_below(3)]);
}

/* the same rows read as those of a smaller capacity: good for some empty records */
int smaller_capacity(uint8_t *store, size_t *length, const shown *s)
{
    (void)length;
    unsigned less = 1 + random_below(3);
    if (s->size > 1 || s->capacity <= less) return 0;
    layout_put(store, 0, CELL_CAPACITY, (unsigned)s->capacity - less);
    return 1;
}

/* one of them, or all from some row on */
int unused_cells(uint8_t *store, size_t *length, const shown *s)
{
    (void)length;
    unsigned from = 1 + random_below((unsigned)s->capacity + 1), to = random_below(2) ? from : (unsigned)s->capacity + 1;
    for (unsigned r = from; r <= to; r++) layout_put(store, r, CELL_UNUSED, 1 + random_below(65535));
    return 1;
}

int bytes_beyond(uint8_t *store, size_t *length, const shown *s)
{
    size_t used = layout_used(s->capacity);
    for (int i = 0; i < 5; i++) store[used + random_below((unsigned)(*length - used))] ^= (uint8_t)(1 + random_below(255));
    return 1;
}

/* mostly near the least length that is enough */
int length_cut(uint8_t *store, size_t *length, const shown *s)
{
    (void)store;
    size_t least = layout_size(s->capacity), to = random_below(3) ? least - 4 + random_below(8) : random_below((unsigned)*length);
    if (to >= *length) return 0;
    *length = to;
    return 1;
}

/* ---- what is free holds something */

/* one cell, in some of which the low byte alone is zero */
int something_in_a_free_row(uint8_t *store, size_t *length, const shown *s)
{
    (void)length;
    unsigned r = row_that_is(s, 0);
    if (r == 0) return 0;
    layout_put(store, r, random_below(8), random_below(4) ? 1 + random_below((unsigned)s->capacity + 2) : 256 * (1 + random_below(255)));
    return 1;
}

/* it leads to a row in use, or to a root's */
int an_edge_of_a_free_row(uint8_t *store, size_t *length, const shown *s)
{
    (void)length;
    unsigned r = row_that_is(s, 0), to = random_below(4) ? row_that_is(s, 1) : 1;
    if (r == 0 || to == 0) return 0;
    layout_put(store, r, CELL_EDGES + random_below(4), to);
    return 1;
}

/* a free row still carries the fields of a row in use, edges and all */
int a_former_row_left(uint8_t *store, size_t *length, const shown *s)
{
    (void)length;
    unsigned r = row_that_is(s, 0), q = row_that_is(s, 1);
    if (r == 0 || q == 0) return 0;
    for (size_t f = 0; f < 8; f++) layout_put(store, r, f, layout_cell(store, q, f));
    return 1;
}

int a_letter_after_the_last(uint8_t *store, size_t *length, const shown *s)
{
    (void)length;
    if (s->size == s->capacity) return 0;
    store[layout_letters(s->capacity) + s->size + random_below((unsigned)(s->capacity - s->size))] = (uint8_t)"ACGT"[random_below(4)];
    return 1;
}

int a_letter_in_a_root(uint8_t *store, size_t *length, const shown *s)
{
    (void)length, (void)s;
    layout_put(store, random_below(2), CELL_OUTER, (unsigned)"ACGT"[random_below(4)]);
    return 1;
}

/* ---- links, edges and ends that lead elsewhere */

/* the link goes one suffix too far, or to another row of the same length */
int link_redirected(uint8_t *store, size_t *length, const shown *s)
{
    (void)length;
    unsigned r = row_that_is(s, 1), q = row_that_is(s, 1);
    if (r == 0) return 0;
    unsigned link = layout_cell(store, r, CELL_LINK);
    if (random_below(2)) return set_cell(store, r, CELL_LINK, link < 2 ? 1 - link : layout_cell(store, link, CELL_LINK));
    if (layout_cell(store, q, CELL_LENGTH) != layout_cell(store, link, CELL_LENGTH)) return 0;
    return set_cell(store, r, CELL_LINK, q);
}

int edge_redirected(uint8_t *store, size_t *length, const shown *s)
{
    (void)length;
    size_t r = random_below(4) ? row_that_is(s, 1) : random_below(2), f = CELL_EDGES + random_below(4);
    return set_cell(store, r, f, random_below(2) ? row_that_is(s, 1) : 0);
}

int edges_exchanged(uint8_t *store, size_t *length, const shown *s)
{
    (void)length;
    size_t r = random_below(2) ? row_that_is(s, 1) : random_below(2), f = CELL_EDGES + random_below(4), g = CELL_EDGES + random_below(4);
    unsigned kept = layout_cell(store, r, f);
    if (!set_cell(store, r, f, layout_cell(store, r, g))) return 0;
    layout_put(store, r, g, kept);
    return 1;
}

/* a row in use or a root */
static unsigned edges_from(const shown *s)
{
    return random_below(2) ? row_that_is(s, 1) : random_below(2);
}

/* an edge that no letter needs: to a row in use, most of which name another, to a free one, or to the empty string's */
int an_edge_too_many(uint8_t *store, size_t *length, const shown *s)
{
    (void)length;
    unsigned r = edges_from(s), choice[4] = {row_that_is(s, 1), row_that_is(s, 1), row_that_is(s, 0), 1}, to = choice[random_below(4)];
    int c = open_edge(store, r);
    if (to == 0 || c < 0) return 0;
    layout_put(store, r, CELL_EDGES + (size_t)c, to);
    return 1;
}

/* the edge to a row starts from another row or by another letter: there are as many edges as before */
int an_edge_moved(uint8_t *store, size_t *length, const shown *s)
{
    (void)length;
    unsigned q = row_that_is(s, 1), r = edges_from(s);
    int c = open_edge(store, r);
    if (q == 0 || c < 0) return 0;
    unsigned inner = layout_cell(store, q, CELL_INNER);
    for (size_t f = CELL_EDGES; f < 8; f++)
        if (layout_cell(store, inner, f) == q) layout_put(store, inner, f, 0);
    layout_put(store, r, CELL_EDGES + (size_t)c, q);
    return 1;
}

int inner_redirected(uint8_t *store, size_t *length, const shown *s)
{
    (void)length;
    unsigned r = row_that_is(s, 1);
    if (r == 0) return 0;
    unsigned inner = layout_cell(store, r, CELL_INNER);
    return set_cell(store, r, CELL_INNER, random_below(2) ? layout_cell(store, r, CELL_LINK) : inner < 2 ? 1 - inner : r);
}

int end_redirected(uint8_t *store, size_t *length, const shown *s)
{
    (void)length;
    size_t f = CELL_LEFT + random_below(2);
    unsigned now = layout_cell(store, 1, f);
    return set_cell(store, 1, f, random_below(2) ? layout_cell(store, now, CELL_LINK) : row_that_is(s, 1));
}

int ends_exchanged(uint8_t *store, size_t *length, const shown *s)
{
    (void)length, (void)s;
    unsigned left = layout_cell(store, 1, CELL_LEFT);
    layout_put(store, 1, CELL_LEFT, layout_cell(store, 1, CELL_RIGHT));
    layout_put(store, 1, CELL_RIGHT, left);
    return 1;
}

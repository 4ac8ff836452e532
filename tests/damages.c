/* The table of the kinds of damage, and what they share. */
#include "damages_parts.h"
#include "random.h"
#include <string.h>

unsigned any_row(const shown *s)
{
    return 2 + random_below((unsigned)s->capacity);
}

unsigned row_that_is(const shown *s, int used)
{
    for (int tries = 0; tries < 200; tries++) {
        unsigned r = any_row(s);
        if (s->used[r] == used) return r;
    }
    return 0;
}

void exchange_cells(uint8_t *store, size_t r, size_t q, size_t from, size_t to)
{
    for (size_t f = from; f < to; f++) {
        unsigned kept = layout_cell(store, r, f);
        layout_put(store, r, f, layout_cell(store, q, f));
        layout_put(store, q, f, kept);
    }
}

int set_cell(uint8_t *store, size_t r, size_t f, unsigned value)
{
    if (layout_cell(store, r, f) == value) return 0;
    layout_put(store, r, f, value);
    return 1;
}

int open_edge(const uint8_t *store, unsigned r)
{
    size_t c = random_below(4);
    for (size_t i = 0; i < 4; i++)
        if (layout_cell(store, r, CELL_EDGES + (c + i) % 4) == 0) return (int)((c + i) % 4);
    return -1;
}

unsigned renamed(unsigned value, unsigned r, unsigned q)
{
    return value == r ? q : value == q ? r : value;
}

static int junk(uint8_t *store, size_t *length, const shown *s)
{
    unsigned capacity = (unsigned)s->capacity;
    for (size_t i = 0; i < *length; i++) store[i] = (uint8_t)random_below(256);
    layout_put(store, 0, CELL_CAPACITY, capacity);
    layout_put(store, 0, CELL_SIZE, (unsigned)s->size);
    layout_put(store, 0, CELL_COUNT, (unsigned)s->count);
    layout_put(store, 0, CELL_READING, s->reading);
    return 1;
}

static int zeros(uint8_t *store, size_t *length, const shown *s)
{
    (void)s;
    memset(store, 0, *length);
    return 1;
}

/* new kinds come last: the fuzz inputs name a kind by its place */
const damage damages[] = {
    {"one byte", MAKES_GOOD | MAKES_BAD, one_byte},
    {"one bit", MAKES_GOOD | MAKES_BAD, one_bit},
    {"one field", MAKES_BAD, one_field},
    {"a header field", MAKES_BAD | MAY_BE_GOOD, header_field},
    {"letters read otherwise", MAKES_BAD, other_reading_of_letters},
    {"no letters, read otherwise", MAKES_GOOD, other_reading_of_nothing},
    {"a reading that is none", MAKES_BAD, no_reading},
    {"a smaller capacity", MAKES_GOOD | MAKES_BAD, smaller_capacity},
    {"unused cells", MAKES_GOOD, unused_cells},
    {"bytes beyond", MAKES_GOOD, bytes_beyond},
    {"the length cut", MAKES_GOOD | MAKES_BAD, length_cut},
    {"rows renamed", MAKES_GOOD, rows_renamed},
    {"renamed in the table only", MAKES_GOOD | MAKES_BAD, renamed_in_the_table_only},
    {"rows exchanged", MAKES_BAD, rows_exchanged},
    {"the order permuted", MAKES_GOOD, order_permuted},
    {"the order without the rank", MAKES_BAD, order_without_rank},
    {"the rank without the order", MAKES_BAD, rank_without_order},
    {"a used row listed as free", MAKES_BAD, used_listed_as_free},
    {"something in a free row", MAKES_BAD, something_in_a_free_row},
    {"a former row left", MAKES_BAD, a_former_row_left},
    {"a letter after the last", MAKES_BAD, a_letter_after_the_last},
    {"a letter in a root", MAKES_BAD, a_letter_in_a_root},
    {"a link redirected", MAKES_BAD, link_redirected},
    {"an edge redirected", MAKES_BAD, edge_redirected},
    {"edges exchanged", MAKES_BAD, edges_exchanged},
    {"an inner row redirected", MAKES_BAD, inner_redirected},
    {"an end redirected", MAKES_BAD, end_redirected},
    {"ends exchanged", MAKES_GOOD | MAKES_BAD, ends_exchanged},
    {"a row grafted", MAKES_BAD, row_grafted},
    {"a row pruned", MAKES_BAD, row_pruned},
    {"a leaf grafted elsewhere", MAKES_BAD, leaf_grafted_elsewhere},
    {"two rows for one palindrome", MAKES_BAD, two_rows_for_one},
    {"one letter", MAKES_BAD | MAY_BE_GOOD, one_letter},
    {"letters reversed", MAKES_GOOD | MAKES_BAD, letters_reversed},
    {"reversed with its ends", MAKES_GOOD, reversed_with_its_ends},
    {"letters renamed", MAKES_GOOD, letters_renamed},
    {"partners in the table", MAKES_BAD | MAY_BE_GOOD, partners_in_the_table},
    {"a letter renamed to N", MAKES_BAD, letter_renamed_to_n},
    {"a letter joined by hand", MAKES_GOOD | MAKES_BAD, letter_joined_by_hand},
    {"one more of a length", MAKES_BAD, one_more_of_a_length},
    {"one fewer of a length", MAKES_BAD, one_fewer_of_a_length},
    {"one of no length", MAKES_BAD, one_of_no_length},
    {"the largest too large", MAKES_BAD, largest_too_large},
    {"the largest too small", MAKES_BAD, largest_too_small},
    {"two lengths exchanged", MAKES_BAD, two_lengths_exchanged},
    {"counted at another length", MAKES_BAD, counted_at_another_length},
    {"lengths that agree", MAKES_BAD, lengths_that_agree},
    {"lengths of the other reading", MAKES_BAD, lengths_of_the_other_reading},
    {"lengths of a letter less", MAKES_GOOD | MAKES_BAD, lengths_of_a_letter_less},
    {"no lengths", MAKES_BAD, no_lengths},
    {"another length counted", MAKES_BAD, another_length_counted},
    {"junk", MAKES_BAD, junk},
    {"zeros", MAKES_BAD, zeros},
    {"an edge too many", MAKES_BAD, an_edge_too_many},
    {"an edge moved", MAKES_BAD, an_edge_moved},
    {"an edge of a free row", MAKES_BAD, an_edge_of_a_free_row},
    {"two rows of one rank", MAKES_BAD, two_rows_of_one_rank},
    {"two places of one row", MAKES_BAD, two_places_of_one_row},
    {"a rank past the places", MAKES_BAD, a_rank_past_the_places},
};
const size_t damage_kinds = sizeof damages / sizeof damages[0];

/* What the files of damages share: the damage of each kind, and small changes to a store. */
#ifndef DAMAGES_PARTS_H
#define DAMAGES_PARTS_H
#include "damages.h"

#define DAMAGE(name) int name(uint8_t *store, size_t *length, const shown *s)

/* any row from 2 on, and one that is in use (or free), 0 where none was found */
unsigned any_row(const shown *s);
unsigned row_that_is(const shown *s, int used);
/* cells from one to before another of two rows exchanged */
void exchange_cells(uint8_t *store, size_t r, size_t q, size_t from, size_t to);
/* an edge of row r that leads nowhere; -1 where every one leads somewhere */
int open_edge(const uint8_t *store, unsigned r);
/* a cell with another value than it holds; 0 where it holds this one */
int set_cell(uint8_t *store, size_t r, size_t f, unsigned value);
/* carries the lengths that the rows in use say, whatever the letters are */
void carry_rows(uint8_t *store, const shown *s);
/* the value, with r and q exchanged */
unsigned renamed(unsigned value, unsigned r, unsigned q);

/* single bytes and fields */
DAMAGE(one_byte);
DAMAGE(one_bit);
DAMAGE(one_field);
DAMAGE(header_field);
DAMAGE(other_reading_of_letters);
DAMAGE(other_reading_of_nothing);
DAMAGE(no_reading);
DAMAGE(smaller_capacity);
DAMAGE(unused_cells);
DAMAGE(bytes_beyond);
DAMAGE(length_cut);

/* what is free holds something */
DAMAGE(something_in_a_free_row);
DAMAGE(an_edge_of_a_free_row);
DAMAGE(a_former_row_left);
DAMAGE(a_letter_after_the_last);
DAMAGE(a_letter_in_a_root);

/* links, edges and ends that lead elsewhere */
DAMAGE(link_redirected);
DAMAGE(edge_redirected);
DAMAGE(edges_exchanged);
DAMAGE(an_edge_too_many);
DAMAGE(an_edge_moved);
DAMAGE(inner_redirected);
DAMAGE(end_redirected);
DAMAGE(ends_exchanged);

/* rows under other numbers */
DAMAGE(rows_renamed);
DAMAGE(renamed_in_the_table_only);
DAMAGE(rows_exchanged);

/* the sparse set */
DAMAGE(order_permuted);
DAMAGE(order_without_rank);
DAMAGE(rank_without_order);
DAMAGE(used_listed_as_free);
DAMAGE(two_rows_of_one_rank);
DAMAGE(two_places_of_one_row);
DAMAGE(a_rank_past_the_places);

/* rows too many, too few, or of another record */
DAMAGE(row_grafted);
DAMAGE(row_pruned);
DAMAGE(leaf_grafted_elsewhere);
DAMAGE(two_rows_for_one);

/* the letters */
DAMAGE(one_letter);
DAMAGE(letters_reversed);
DAMAGE(reversed_with_its_ends);
DAMAGE(letters_renamed);
DAMAGE(partners_in_the_table);
DAMAGE(letter_renamed_to_n);
DAMAGE(letter_joined_by_hand);

/* what is carried of the repeats' lengths */
DAMAGE(one_more_of_a_length);
DAMAGE(one_fewer_of_a_length);
DAMAGE(one_of_no_length);
DAMAGE(largest_too_large);
DAMAGE(largest_too_small);
DAMAGE(two_lengths_exchanged);
DAMAGE(counted_at_another_length);
DAMAGE(lengths_that_agree);
DAMAGE(lengths_of_the_other_reading);
DAMAGE(lengths_of_a_letter_less);
DAMAGE(no_lengths);
DAMAGE(another_length_counted);

#endif

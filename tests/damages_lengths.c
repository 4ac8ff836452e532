/* Damage to what the store carries of its repeats' lengths, with the table right or changed along. */
#include "damages_parts.h"
#include "random.h"

/* how many repeats of length k are carried */
static unsigned carried(const uint8_t *store, size_t k)
{
    return layout_cell(store, k + 1, CELL_CARRIED);
}

static void carry(uint8_t *store, size_t k, unsigned value)
{
    layout_put(store, k + 1, CELL_CARRIED, value);
}

/* carries what all of these lengths give */
static void carry_all(uint8_t *store, const shown *s, const unsigned *of_length)
{
    unsigned largest = 0;
    for (size_t k = 1; k <= s->capacity; k++) {
        carry(store, k, of_length[k]);
        if (of_length[k] > 0) largest = (unsigned)k;
    }
    layout_put(store, 1, CELL_LARGEST, largest);
}

static void carry_letters(uint8_t *store, const shown *s, const unsigned char *rule, const unsigned char *letters, size_t n)
{
    stretch all[LAYOUT_MOST];
    unsigned of_length[LAYOUT_MOST + 1] = {0};
    size_t stand = brute_list(rule, letters, n, all);
    for (size_t i = 0; i < stand; i++) of_length[all[i].end - all[i].start]++;
    carry_all(store, s, of_length);
}

void carry_rows(uint8_t *store, const shown *s)
{
    unsigned of_length[LAYOUT_MOST + 1] = {0}, count = layout_cell(store, 0, CELL_COUNT);
    for (size_t r = 2; r < s->capacity + 2; r++) {
        unsigned n = layout_cell(store, r, CELL_LENGTH) - 1;
        if (layout_cell(store, r, CELL_RANK) < count && n >= 1 && n <= s->capacity) of_length[n]++;
    }
    carry_all(store, s, of_length);
}

static unsigned any_length(const shown *s)
{
    return 1 + random_below((unsigned)s->capacity);
}

/* the length of some repeat, 0 where none was found */
static size_t length_of_one(const shown *s)
{
    unsigned r = row_that_is(s, 1);
    return r == 0 ? 0 : s->rows[r].end - s->rows[r].start;
}

/* ---- one number */

/* some would be right if their low byte were read alone */
int one_more_of_a_length(uint8_t *store, size_t *length, const shown *s)
{
    (void)length;
    unsigned k = any_length(s);
    carry(store, k, carried(store, k) + (random_below(4) ? 1 : 256));
    return 1;
}

int one_fewer_of_a_length(uint8_t *store, size_t *length, const shown *s)
{
    (void)length;
    size_t k = length_of_one(s);
    if (k == 0) return 0;
    carry(store, k, carried(store, k) - 1);
    return 1;
}

/* a length above the number of letters */
int one_of_no_length(uint8_t *store, size_t *length, const shown *s)
{
    (void)length;
    if (s->size == s->capacity) return 0;
    carry(store, s->size + 1 + random_below((unsigned)(s->capacity - s->size)), 1 + random_below(3));
    return 1;
}

int largest_too_large(uint8_t *store, size_t *length, const shown *s)
{
    (void)length;
    unsigned now = s->largest, choice[4] = {now + 1, now + 2, now + 256, now + 1 + random_below(65535 - now)};
    layout_put(store, 1, CELL_LARGEST, choice[random_below(4)]);
    return 1;
}

/* one less, two less, any, or another length that a repeat has */
int largest_too_small(uint8_t *store, size_t *length, const shown *s)
{
    (void)length;
    if (s->largest == 0) return 0;
    unsigned now = s->largest, choice[4] = {now - 1, now > 1 ? now - 2 : 0, random_below(now), (unsigned)length_of_one(s)};
    return set_cell(store, 1, CELL_LARGEST, choice[random_below(4)]);
}

/* ---- several numbers */

int two_lengths_exchanged(uint8_t *store, size_t *length, const shown *s)
{
    (void)length;
    unsigned k = any_length(s), j = any_length(s);
    if (carried(store, k) == carried(store, j)) return 0;
    exchange_cells(store, k + 1, j + 1, CELL_CARRIED, CELL_CARRIED + 1);
    return 1;
}

/* one less here, one more there: there are as many as before, and the largest may follow */
int counted_at_another_length(uint8_t *store, size_t *length, const shown *s)
{
    (void)length;
    size_t k = length_of_one(s);
    unsigned j = any_length(s), of_length[LAYOUT_MOST + 1];
    if (k == 0 || k == j) return 0;
    for (size_t i = 1; i <= s->capacity; i++) of_length[i] = s->of_length[i] - (i == k) + (i == j);
    carry_all(store, s, of_length);
    if (random_below(2)) layout_put(store, 1, CELL_LARGEST, s->largest);
    return 1;
}

/* a repeat more than there are, longer than all, or the longest left out: the numbers agree with each other */
int lengths_that_agree(uint8_t *store, size_t *length, const shown *s)
{
    (void)length;
    unsigned k = any_length(s), of_length[LAYOUT_MOST + 1];
    for (size_t i = 1; i <= s->capacity; i++) of_length[i] = s->of_length[i];
    if (k > s->largest) of_length[k] = 1;
    else of_length[s->largest] = 0;
    carry_all(store, s, of_length);
    return 1;
}

/* all that the same letters give in the other reading */
int lengths_of_the_other_reading(uint8_t *store, size_t *length, const shown *s)
{
    (void)length;
    if (s->size == 0) return 0;
    carry_letters(store, s, brute_rule(1 - s->reading), s->letters, s->size);
    return 1;
}

/* all that the letters give but for the one at an end: good where that brings no palindrome in */
int lengths_of_a_letter_less(uint8_t *store, size_t *length, const shown *s)
{
    (void)length;
    if (s->size == 0) return 0;
    carry_letters(store, s, s->rule, s->letters + random_below(2), s->size - 1);
    return 1;
}

int no_lengths(uint8_t *store, size_t *length, const shown *s)
{
    static const unsigned none[LAYOUT_MOST + 1];
    (void)length;
    if (s->count == 0) return 0;
    carry_all(store, s, none);
    return 1;
}

/* ---- the table changed along */

/* a row says another length than its palindrome has, and is counted by it */
int another_length_counted(uint8_t *store, size_t *length, const shown *s)
{
    (void)length;
    unsigned r = row_that_is(s, 1), n = any_length(s);
    if (r == 0 || !set_cell(store, r, CELL_LENGTH, n + 1)) return 0;
    carry_rows(store, s);
    return 1;
}

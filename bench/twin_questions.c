/* The twin's questions that answer numbers, and spelling and finding. */
#include "links.h"
#include "twin.h"

uint64_t twin_length(const uint8_t *store, size_t length)
{
    return twin_is_good(store, length) ? answer(false, 0, size_of(store), 0) : 3;
}

uint64_t twin_count(const uint8_t *store, size_t length)
{
    return twin_is_good(store, length) ? answer(false, 0, count_of(store), 0) : 3;
}

uint64_t twin_longest_length(const uint8_t *store, size_t length)
{
    return twin_is_good(store, length) ? answer(false, 0, longest_of(store), 0) : 3;
}

uint64_t twin_letter(const uint8_t *store, size_t length, uint64_t place)
{
    if (!twin_is_good(store, length))
        return 3;
    if (place >= size_of(store))
        return 7;
    return answer(false, 0, letters_of(store)[place], 0);
}

uint64_t twin_longest(const uint8_t *store, size_t length)
{
    if (!twin_is_good(store, length))
        return 3;
    unsigned n = size_of(store), row = EMPTY, most = 0, place = 0;
    if (n == 0)
        return 6;
    struct view v = view_of(store, RIGHT);
    const uint8_t *partners = letter_partners[reading_of(store)];
    for (unsigned k = 0; k < n; k++) {
        row = step_again(store, v, partners, k, row);
        unsigned here = get(store, row, LENGTH) - 1;
        if (here > most) {
            most = here;
            place = k + 1 - here;
        }
    }
    return answer(false, 0, most, place);
}

static uint64_t longest_at(const uint8_t *store, size_t length, enum side side)
{
    struct reach reach[2];
    if (!twin_examine(store, length, reach))
        return 3;
    if (size_of(store) == 0)
        return 6;
    return answer(!reach[side].again, end_row(store, side), 0, 0);
}

uint64_t twin_longest_left(const uint8_t *store, size_t length) { return longest_at(store, length, LEFT); }
uint64_t twin_longest_right(const uint8_t *store, size_t length) { return longest_at(store, length, RIGHT); }

uint64_t twin_row(const uint8_t *store, size_t length, uint64_t row)
{
    if (!twin_is_good(store, length))
        return 3;
    if (!row_used(store, row))
        return 7;
    return answer(false, get(store, row, LINK), (get(store, row, LENGTH) - 1) & 0xffff, get(store, row, INNER));
}

/* What spelling a row needs: 3, 7 or 9, or 0 where it can be spelt, and then its length. */
static uint64_t judge_spell(const uint8_t *store, size_t length, uint64_t row, size_t out_length, size_t *n)
{
    if (!twin_is_good(store, length))
        return 3;
    if (!row_used(store, row))
        return 7;
    *n = row == IMAGINARY ? 0 : get(store, row, LENGTH) - 1;
    return out_length < *n ? 9 : 0;
}

/* Outwards from the inner row, by recursion: the form that the library has. */
static void spell_at(const uint8_t *b, const uint8_t *partners, unsigned row, uint8_t *out, size_t at)
{
    if (row < 2)
        return;
    uint8_t letter = (uint8_t)get(b, row, OUTER);
    spell_at(b, partners, get(b, row, INNER), out, at + 1);
    out[at] = partners[letter];
    out[at + get(b, row, LENGTH) - 2] = letter;
}

uint64_t twin_spell(const uint8_t *store, size_t length, uint64_t row, uint8_t *out, size_t out_length)
{
    size_t n;
    uint64_t refusal = judge_spell(store, length, row, out_length, &n);
    if (refusal != 0)
        return refusal;
    spell_at(store, partners_of(store), (unsigned)row, out, 0);
    return answer(false, 0, (unsigned)n, 0);
}

uint64_t twin_spell_by_loop(const uint8_t *store, size_t length, uint64_t row, uint8_t *out, size_t out_length)
{
    size_t n;
    uint64_t refusal = judge_spell(store, length, row, out_length, &n);
    if (refusal != 0)
        return refusal;
    const uint8_t *partners = partners_of(store);
    for (size_t at = 0; row > EMPTY; at++, row = get(store, row, INNER)) {
        uint8_t letter = (uint8_t)get(store, row, OUTER);
        out[at] = partners[letter];
        out[n - 1 - at] = letter;
    }
    return answer(false, 0, (unsigned)n, 0);
}

/* The first pair of a piece, from the outside and counted from 1, whose letters are not partners; 0 where all are. The middle
 * letter of an odd piece faces itself. */
static size_t broken_at(const uint8_t *piece, size_t n, const uint8_t *partners)
{
    for (size_t i = 0; i < n - n / 2; i++)
        if (piece[i] != partners[piece[n - 1 - i]])
            return i + 1;
    return 0;
}

/* The row of a piece that reads alike, by the edges from its centre outwards; 0 where it stands nowhere. */
static unsigned row_of_piece(const uint8_t *b, const uint8_t *piece, size_t n)
{
    unsigned row = n % 2 == 0 ? EMPTY : IMAGINARY;
    for (size_t k = n / 2; k < n; k++) {
        row = edge_of(b, row, piece[k]);
        if (row == 0)
            break;
    }
    return row;
}

uint64_t twin_find(const uint8_t *store, size_t length, const uint8_t *piece, size_t n)
{
    if (!twin_is_good(store, length))
        return 3;
    if (n == 0)
        return 8;
    for (size_t i = 0; i < n; i++)
        if (!letter_table[piece[i]])
            return 4;
    size_t pair = broken_at(piece, n, partners_of(store));
    if (pair != 0)
        return answer(false, 0, pair < 65535 ? (unsigned)pair : 65535, 0);
    unsigned row = n > size_of(store) ? 0 : row_of_piece(store, piece, n);
    return answer(row != 0, row, 0, 0);
}

/* The twin's changes: opening, an addition and a removal, byte for byte what the library leaves. */
#include "adding.h"

void bare_open(uint8_t *b, size_t capacity, enum reading reading)
{
    memset(b, 0, ROW_BYTES * (capacity + 2) + capacity);
    put(b, 0, 8, (unsigned)capacity);
    put(b, 0, 11, reading);
    put(b, EMPTY, LENGTH, 1);
    set_end_row(b, LEFT, EMPTY);
    set_end_row(b, RIGHT, EMPTY);
    for (size_t i = 0; i < capacity; i++) {
        put(b, i + 2, ORDER, (unsigned)i + 2);
        put(b, i + 2, RANK, (unsigned)i);
    }
}

uint64_t bare_add(uint8_t *b, enum side side, uint8_t letter) { return add_in(b, view_of(b, side), side, letter); }

/* A palindrome goes. Where it was the only one of the largest length, the one inside it stays, or there is none in it: so the
 * next largest length is smaller by one or two, and nothing is searched. */
static void count_out(uint8_t *b, unsigned stored)
{
    unsigned others = get(b, stored, CARRIED) - 1, length = stored - 1;
    put(b, stored, CARRIED, others);
    if (others != 0 || length != longest_of(b))
        return;
    if (length == 1)
        set_longest(b, 0);
    else
        set_longest(b, get(b, stored - 1, CARRIED) != 0 ? length - 1 : length - 2);
}

/* Clears row q and the edge that leads to it; it changes places with the last row in use. */
static void drop(uint8_t *b, unsigned q)
{
    unsigned last = count_of(b) - 1, rank = get(b, q, RANK), moved = get(b, last + 2, ORDER);
    count_out(b, get(b, q, LENGTH));
    put_edge(b, get(b, q, INNER), (uint8_t)get(b, q, OUTER), 0);
    memset(b + ROW_BYTES * q, 0, 8);
    put(b, rank + 2, ORDER, moved);
    put(b, moved, RANK, rank);
    put(b, last + 2, ORDER, q);
    put(b, q, RANK, last);
    put(b, 0, 10, last);
}

uint64_t bare_remove(uint8_t *b, enum side side, struct reach reach)
{
    unsigned n = size_of(b), q = end_row(b, side);
    uint8_t *w = b + (letters_of(b) - b), letter = w[side == LEFT ? 0 : n - 1];
    if (get(b, q, LENGTH) == n + 1)
        set_end_row(b, side == LEFT ? RIGHT : LEFT, get(b, q, LINK));
    set_end_row(b, side, reach.shorter);
    if (side == LEFT)
        memmove(w, w + 1, n - 1);
    w[n - 1] = 0;
    put(b, 0, 9, n - 1);
    if (reach.again)
        return answer(false, 0, letter, 0);
    drop(b, q);
    return answer(true, q, letter, 0);
}

/* The twin's calls that change a record: the test of the store and of the arguments, then the change. */
#include "twin.h"

static uint64_t open(uint8_t *store, size_t length, uint64_t capacity, enum reading reading)
{
    if (capacity < 1 || capacity > 1024)
        return 1;
    if (length < 48 * capacity + 256)
        return 2;
    bare_open(store, capacity, reading);
    return 0;
}

uint64_t twin_open(uint8_t *store, size_t length, uint64_t capacity) { return open(store, length, capacity, PLAIN); }

uint64_t twin_open_inverted(uint8_t *store, size_t length, uint64_t capacity)
{
    return open(store, length, capacity, INVERTED);
}

static uint64_t add(uint8_t *store, size_t length, enum side side, uint64_t letter)
{
    if (!twin_is_good(store, length))
        return 3;
    if (letter > 255 || !letter_table[letter])
        return 4;
    if (size_of(store) >= capacity_of(store))
        return 5;
    return bare_add(store, side, (uint8_t)letter);
}

static uint64_t take(uint8_t *store, size_t length, enum side side)
{
    struct reach reach[2];
    if (!twin_examine(store, length, reach))
        return 3;
    if (size_of(store) == 0)
        return 6;
    return bare_remove(store, side, reach[side]);
}

static uint64_t turn(uint8_t *store, size_t length, enum reading reading)
{
    if (!twin_is_good(store, length))
        return 3;
    bare_turn(store, reading);
    return 0;
}

uint64_t twin_add_left(uint8_t *store, size_t length, uint64_t letter) { return add(store, length, LEFT, letter); }
uint64_t twin_add_right(uint8_t *store, size_t length, uint64_t letter) { return add(store, length, RIGHT, letter); }
uint64_t twin_remove_left(uint8_t *store, size_t length) { return take(store, length, LEFT); }
uint64_t twin_remove_right(uint8_t *store, size_t length) { return take(store, length, RIGHT); }
uint64_t twin_turn_plain(uint8_t *store, size_t length) { return turn(store, length, PLAIN); }
uint64_t twin_turn_inverted(uint8_t *store, size_t length) { return turn(store, length, INVERTED); }

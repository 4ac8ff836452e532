#include "written.h"
#include "brute.h"
#include "followed.h"
#include "guard.h"
#include "layout.h"
#include "mirror.h"
#include <string.h>

enum { FEW = 40, FAR = 70000, OUT_SLOT = FOLLOWED_SLOT + 1 };

static const uint8_t fillings[] = {' ', '\n', 0, 1, 4, '1', 'a', 'A', 'T', '/', 0xff};
static uint8_t kept[MIRROR_STORE_SIZE(LAYOUT_MOST)];

struct written asked;

void written_keep(void)
{
    memcpy(kept, record.store, record.length);
}

void written_store_stays(void)
{
    must("a byte of the store changed", 0, memcmp(record.store, kept, record.length) != 0);
}

/* how many of the n bytes hold another value */
static size_t others_than(uint8_t value, const uint8_t *at, size_t n)
{
    size_t found = 0;
    for (size_t i = 0; i < n; i++) found += at[i] != value;
    return found;
}

/* lends so many bytes that all hold the value, and makes the call */
static uint64_t make(size_t room, uint8_t value)
{
    asked.out = guard_room(OUT_SLOT, room);
    memset(asked.out, value, room);
    return asked.call(record.store, record.length, asked.out, room);
}

void written_ask(size_t room)
{
    uint8_t value = fillings[(asked.lent + asked.refused) % sizeof fillings];
    int fits = room >= asked.need;
    size_t behind = fits ? asked.need : 0;
    must("the answer", fits ? asked.answer : MIRROR_NO_ROOM, make(room, value));
    must("a byte that was written differs", 0, memcmp(asked.out, asked.bytes, behind) != 0);
    must(fits ? "a byte behind what was written" : "a byte after a refusal", 0, others_than(value, asked.out + behind, room - behind));
    asked.lent += (unsigned long)fits;
    asked.refused += !fits;
}

void written_about(void)
{
    for (size_t room = asked.need > FEW ? asked.need - WRITTEN_ABOUT : 0; room <= asked.need + WRITTEN_ABOUT; room++) written_ask(room);
    written_store_stays();
}

void written_every_room(size_t enough)
{
    const size_t some[] = {0, 1, 2, 3, 5, asked.need / 2, enough, WRITTEN_MOST - 1, WRITTEN_MOST, WRITTEN_MOST + 1, FAR};
    written_about();
    for (size_t i = 0; i < sizeof some / sizeof some[0]; i++) written_ask(some[i]);
    written_store_stays();
}

/* 3 comes before every other refusal, and no byte is written */
static void not_good(const char *what)
{
    const size_t rooms[] = {0, asked.need - (asked.need > 0), asked.need, asked.need + WRITTEN_ABOUT, WRITTEN_MOST};
    for (size_t i = 0; i < sizeof rooms / sizeof rooms[0]; i++) {
        must(what, MIRROR_DAMAGED, make(rooms[i], 'x'));
        must("a byte of what is not good", 0, others_than('x', asked.out, rooms[i]));
        asked.damaged++;
    }
}

/* another number in a cell, and then its own again */
static void wrong_cell(const char *what, size_t row, size_t cell, unsigned value)
{
    unsigned was = layout_cell(record.store, row, cell);
    layout_put(record.store, row, cell, value);
    not_good(what);
    layout_put(record.store, row, cell, was);
}

void written_damage(void)
{
    uint8_t *letter = record.store + layout_letters(record.capacity) + record.size / 2, was = *letter;
    for (const char *other = "Nacgt "; record.size > 0 && *other; other++) {
        *letter = (uint8_t)*other;
        not_good("a letter that is none");
    }
    *letter = was;
    wrong_cell("a reading that is none", 0, CELL_READING, READINGS);
    for (size_t row = 2; row < record.capacity + 2; row += 1 + record.capacity / 8) {
        wrong_cell("another inner row", row, CELL_INNER, layout_cell(record.store, row, CELL_INNER) + 1);
        wrong_cell("another link", row, CELL_LINK, layout_cell(record.store, row, CELL_LINK) + 1);
    }
    record.length--;
    not_good("a store too short");
    record.length++;
    written_store_stays();
    written_ask(asked.need);
}

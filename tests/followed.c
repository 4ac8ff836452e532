#include "followed.h"
#include "brute.h"
#include "guard.h"
#include "mirror.h"
#include <stdio.h>
#include <stdlib.h>
#include <string.h>

struct followed record;

void must(const char *what, uint64_t wanted, uint64_t got)
{
    if (wanted == got) return;
    printf("%s record %.*s%s (%zu letters, capacity %zu): %s: wanted %llx, got %llx\n", record.reading == PLAIN ? "plain" : "inverted",
           (int)(record.size < 60 ? record.size : 60), (char *)record.letters, record.size < 60 ? "" : "..", record.size, record.capacity,
           what, (unsigned long long)wanted, (unsigned long long)got);
    exit(1);
}

static void done(uint64_t answer)
{
    must("a change is refused", 0, mirror_refusal(answer));
}

static void read_as(unsigned reading)
{
    record.reading = reading;
    record.rule = brute_rule(reading);
}

void followed_open(unsigned reading, size_t capacity)
{
    read_as(reading);
    record.size = 0;
    record.capacity = capacity;
    record.length = MIRROR_STORE_SIZE(capacity);
    record.store = guard_room(FOLLOWED_SLOT, record.length);
    done((reading == PLAIN ? mirror_open : mirror_open_inverted)(record.store, record.length, capacity));
}

void followed_join(int left, unsigned char letter)
{
    memmove(record.letters + left, record.letters, record.size);
    record.letters[left ? 0 : record.size] = letter;
    record.size++;
    done((left ? mirror_add_left : mirror_add_right)(record.store, record.length, letter));
}

void followed_leave(int left)
{
    record.size--;
    memmove(record.letters, record.letters + left, record.size);
    done((left ? mirror_remove_left : mirror_remove_right)(record.store, record.length));
}

void followed_turn(void)
{
    read_as(record.reading == PLAIN ? INVERTED : PLAIN);
    done((record.reading == PLAIN ? mirror_turn_plain : mirror_turn_inverted)(record.store, record.length));
}

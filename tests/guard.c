#define _DEFAULT_SOURCE
#include "guard.h"
#include <stdio.h>
#include <stdlib.h>
#include <string.h>
#include <sys/mman.h>
#include <unistd.h>

enum { SLOTS = 7, ROOM = 8 * 1024 * 1024 };

static guard_place where = GUARD_AFTER;

void guard_at(guard_place place)
{
    where = place;
}

void guard_in_turn(void)
{
    static unsigned long turns;
    guard_at(turns++ % 2 ? GUARD_BEFORE : GUARD_AFTER);
}

/* ROOM bytes with a guard page on either side */
static uint8_t *fenced(void)
{
    size_t page = (size_t)sysconf(_SC_PAGESIZE);
    uint8_t *base = mmap(NULL, ROOM + 2 * page, PROT_READ | PROT_WRITE, MAP_PRIVATE | MAP_ANONYMOUS, -1, 0);
    if (base == MAP_FAILED || mprotect(base, page, PROT_NONE) != 0 || mprotect(base + page + ROOM, page, PROT_NONE) != 0) {
        perror("guard");
        exit(1);
    }
    return base + page;
}

uint8_t *guard_room(int slot, size_t n)
{
    static uint8_t *rooms[SLOTS];
    if (rooms[slot] == NULL) rooms[slot] = fenced();
    if (n > ROOM) {
        printf("guard: %zu bytes are too many\n", n);
        exit(1);
    }
    return where == GUARD_BEFORE ? rooms[slot] : rooms[slot] + ROOM - n;
}

uint8_t *guarded(int slot, const unsigned char *from, size_t n)
{
    uint8_t *room = guard_room(slot, n);
    if (n > 0) memcpy(room, from, n);
    return room;
}

/* Buffers between two pages which may not be touched, so that a read or a write outside stops the test. A buffer's length
 * is seldom a whole number of pages, so it touches one of the two: guard_at says which, and a test runs once with each. */
#ifndef GUARD_H
#define GUARD_H
#include <stddef.h>
#include <stdint.h>

typedef enum { GUARD_AFTER, GUARD_BEFORE } guard_place;

/* From now on buffers end at a guard page (as at the start), or begin right after one. */
void guard_at(guard_place place);
/* The same with the one place and the other, in turn. */
void guard_in_turn(void);
/* A buffer of n bytes in the given slot (0 to 6) that touches a guard page. The slot's former buffer is gone. */
uint8_t *guard_room(int slot, size_t n);
/* The same, holding a copy of n bytes. */
uint8_t *guarded(int slot, const unsigned char *from, size_t n);
#endif

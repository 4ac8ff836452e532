/* Kinds of damage to a good store: single bytes and fields, and groups of fields changed so that most of the store still
 * agrees with itself. What a kind makes is judged afterwards, so a kind only says what it may make. */
#ifndef DAMAGES_H
#define DAMAGES_H
#include "judge.h"

/* what a kind must make at least once in a run, and what it may make */
enum { MAKES_GOOD = 1, MAKES_BAD = 2, MAY_BE_GOOD = 4, MAY_BE_BAD = 8 };

typedef struct {
    const char *name;
    int outcomes;
    /* damages a good store that shows s, and may cut it; 0 where this store offers no such damage */
    int (*make)(uint8_t *store, size_t *length, const shown *s);
} damage;

extern const damage damages[];
extern const size_t damage_kinds;
#endif

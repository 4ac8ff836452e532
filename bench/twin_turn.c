/* Many letters added at the right with no test between them: the twin's turn, and its fill of a fresh record. */
#include "adding.h"

/* The view towards the right stays as it is while letters join there, so that of the new reading is chosen once. */
void bare_turn(uint8_t *b, enum reading reading)
{
    uint8_t letters[1024];
    size_t n = size_of(b);
    if (reading_of(b) == reading)
        return;
    memcpy(letters, letters_of(b), n);
    bare_open(b, capacity_of(b), reading);
    struct view v = view_of(b, RIGHT);
    for (size_t i = 0; i < n; i++)
        add_in(b, v, RIGHT, letters[i]);
}

/* Stands for the addition of a single letter, so each chooses its table for itself. */
uint64_t twin_fill(uint8_t *b, size_t length, const uint8_t *letters, size_t n)
{
    (void)length;
    bare_open(b, 1024, PLAIN);
    for (size_t i = 0; i < n; i++)
        bare_add(b, RIGHT, letters[i]);
    return n;
}

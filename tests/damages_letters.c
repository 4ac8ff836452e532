/* Damage to the letters, with the table changed along or not. */
#include "damages_parts.h"
#include "random.h"
#include <string.h>

/* ---- the letters */

int one_letter(uint8_t *store, size_t *length, const shown *s)
{
    (void)length;
    if (s->size == 0) return 0;
    uint8_t *at = store + layout_letters(s->capacity) + random_below((unsigned)s->size), c = (uint8_t)"ACGT"[random_below(4)];
    if (*at == c) return 0;
    *at = c;
    return 1;
}

/* each letter's partner, from the last to the first: good where both ends have the same palindrome */
int letters_reversed(uint8_t *store, size_t *length, const shown *s)
{
    (void)length;
    for (size_t i = 0; i < s->size; i++) store[layout_letters(s->capacity) + i] = s->rule[s->letters[s->size - 1 - i]];
    return 1;
}

/* a record reversed so has the same palindromes, and its ends exchanged */
int reversed_with_its_ends(uint8_t *store, size_t *length, const shown *s)
{
    return letters_reversed(store, length, s) && ends_exchanged(store, length, s);
}

static size_t edge_by(unsigned char letter)
{
    return CELL_EDGES + (letter == 'A' ? 0 : letter == 'C' ? 1 : letter == 'G' ? 2 : 3);
}

/* every letter in the rows and in the edges becomes the one that the map has for it */
static void rename_in_the_table(uint8_t *store, const shown *s, const unsigned char *map)
{
    for (size_t r = 0; r < s->capacity + 2; r++) {
        unsigned edges[4], outer = layout_cell(store, r, CELL_OUTER);
        for (size_t c = 0; c < 4; c++) edges[c] = layout_cell(store, r, CELL_EDGES + c);
        for (size_t c = 0; c < 4; c++) layout_put(store, r, edge_by(map[(unsigned char)"ACGT"[c]]), edges[c]);
        layout_put(store, r, CELL_OUTER, map[outer]);
    }
}

/* two letters exchange their parts everywhere, and their partners do: in the record, in the rows and in the edges */
int letters_renamed(uint8_t *store, size_t *length, const shown *s)
{
    (void)length;
    unsigned a = random_below(4), b = (a + 1 + random_below(3)) % 4;
    unsigned char x = (unsigned char)"ACGT"[a], y = (unsigned char)"ACGT"[b], map[256];
    memcpy(map, brute_rule(PLAIN), sizeof map);
    map[x] = y, map[y] = x, map[s->rule[x]] = s->rule[y], map[s->rule[y]] = s->rule[x];
    for (size_t i = 0; i < s->size; i++) store[layout_letters(s->capacity) + i] = map[s->letters[i]];
    rename_in_the_table(store, s, map);
    return 1;
}

/* A for T and C for G, and back, in the table alone: in an inverted record each row is told by its first letter, not its last */
int partners_in_the_table(uint8_t *store, size_t *length, const shown *s)
{
    (void)length;
    if (s->count == 0) return 0;
    rename_in_the_table(store, s, brute_rule(INVERTED));
    return 1;
}

/* one letter becomes N everywhere, and its edges go or stay: in a plain record all agrees but that N is no letter */
int letter_renamed_to_n(uint8_t *store, size_t *length, const shown *s)
{
    (void)length;
    if (s->size == 0) return 0;
    unsigned char x = s->letters[random_below((unsigned)s->size)];
    int edges_go = (int)random_below(2);
    size_t edge = edge_by(x);
    for (size_t i = 0; i < s->size; i++)
        if (s->letters[i] == x) store[layout_letters(s->capacity) + i] = 'N';
    for (size_t r = 0; r < s->capacity + 2; r++) {
        if (edges_go) layout_put(store, r, edge, 0);
        if (layout_cell(store, r, CELL_OUTER) == x) layout_put(store, r, CELL_OUTER, 'N');
    }
    return 1;
}

/* a letter joins at the right and both ends are right, but no row is made: good where the letter brings no palindrome in */
int letter_joined_by_hand(uint8_t *store, size_t *length, const shown *s)
{
    (void)length;
    static shown grown;
    if (s->size == s->capacity || s->size == 0) return 0;
    grown = *s;
    grown.letters[grown.size++] = store[layout_letters(s->capacity) + s->size] = (uint8_t)"ACGT"[random_below(4)];
    size_t n = brute_left(s->rule, grown.letters, grown.size), m = brute_right(s->rule, grown.letters, grown.size);
    unsigned left = n > s->size ? 0 : judge_row(s, grown.letters, n), right = m > s->size ? 0 : judge_row(s, grown.letters + grown.size - m, m);
    layout_put(store, 0, CELL_SIZE, (unsigned)grown.size);
    if (left) layout_put(store, 1, CELL_LEFT, left);
    if (right) layout_put(store, 1, CELL_RIGHT, right);
    return 1;
}

/* Whether a store is good, decided without the library: from docs/LAYOUT.md and crates/store/specs/Good.antt, by trying
 * every stretch of the letters. It looks for what each used row spells, and holds the table against every palindrome. */
#ifndef JUDGE_H
#define JUDGE_H
#include "brute.h"
#include "layout.h"

/* what a store shows: its reading with the partner rule of it, its letters, for each used row from 2 on the first place of its
 * palindrome; and how many palindromes its letters have of each length, with the largest of these lengths, 0 for none */
typedef struct {
    size_t capacity, size, count;
    unsigned reading;
    const unsigned char *rule;
    unsigned char letters[LAYOUT_MOST];
    unsigned char used[LAYOUT_MOST + 2];
    stretch rows[LAYOUT_MOST + 2];
    unsigned of_length[LAYOUT_MOST + 1], largest;
} shown;

/* NULL for a good store, and else what is wrong with it. What the store shows is filled in as far as it is right. */
const char *judge(const uint8_t *store, size_t length, shown *s);
/* The row that holds the word, 1 for the empty one, 0 where none does. Only for what a good store shows. */
unsigned judge_row(const shown *s, const unsigned char *word, size_t n);
/* The word around row r: the letter's partner, what the row holds, the letter; the letter alone around row 0. Its length. */
size_t judge_around(const shown *s, size_t r, unsigned char letter, unsigned char *word);
#endif

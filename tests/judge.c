#include "judge.h"
#include <string.h>

static const char *header(const uint8_t *store, size_t length, shown *s)
{
    if (length < layout_size(1)) return "header: too short for any capacity";
    s->capacity = layout_cell(store, 0, CELL_CAPACITY);
    s->size = layout_cell(store, 0, CELL_SIZE);
    s->count = layout_cell(store, 0, CELL_COUNT);
    if (s->capacity < 1 || s->capacity > LAYOUT_MOST) return "header: capacity outside 1 to 1,024";
    if (length < layout_size(s->capacity)) return "header: too short for its capacity";
    if (s->size > s->capacity) return "header: more letters than the capacity";
    s->reading = layout_cell(store, 0, CELL_READING);
    if (s->reading >= READINGS) return "header: a reading that is none";
    s->rule = brute_rule(s->reading);
    return NULL;
}

static const char *letters(const uint8_t *store, shown *s)
{
    const uint8_t *at = store + layout_letters(s->capacity);
    for (size_t i = 0; i < s->capacity; i++) {
        if (i < s->size && (at[i] == 0 || strchr("ACGT", at[i]) == NULL)) return "letters: not A, C, G, T";
        if (i >= s->size && at[i] != 0) return "letters: a place after the last letter is not zero";
    }
    memcpy(s->letters, at, s->size);
    return NULL;
}

/* order lists every row from 2 on, and rank is its inverse */
static const char *sparse_set(const uint8_t *store, shown *s)
{
    for (size_t i = 0; i < s->capacity; i++) {
        unsigned row = layout_cell(store, i + 2, CELL_ORDER);
        if (row < 2 || row >= s->capacity + 2) return "order: not a row from 2 on";
        if (layout_cell(store, row, CELL_RANK) != i) return "order: the row has another rank";
    }
    for (size_t r = 0; r < s->capacity + 2; r++) s->used[r] = r < 2 || layout_cell(store, r, CELL_RANK) < s->count;
    return NULL;
}

static const char *free_rows(const uint8_t *store, const shown *s)
{
    if (layout_cell(store, 0, CELL_OUTER) != 0 || layout_cell(store, 1, CELL_OUTER) != 0) return "roots: an outer letter";
    for (size_t r = 2; r < s->capacity + 2; r++)
        for (size_t f = 0; !s->used[r] && f < 8; f++)
            if (layout_cell(store, r, f) != 0) return "free row: something left in it";
    return NULL;
}

/* what a row spells, its outer letters last and their partners first along the inner rows; 0 where that leads nowhere or
 * past the record */
static size_t spelling(const uint8_t *store, const shown *s, size_t row, unsigned char *word)
{
    size_t half = 0;
    while (row >= 2) {
        if (row >= s->capacity + 2 || !s->used[row] || half >= s->size) return 0;
        unsigned outer = layout_cell(store, row, CELL_OUTER);
        if (outer > 255) return 0;
        word[half++] = (unsigned char)outer;
        row = layout_cell(store, row, CELL_INNER);
    }
    size_t n = 2 * half - (row == 0);
    if (n > s->size) return 0;
    for (size_t i = 0; i < half; i++) {
        unsigned char outer = word[i];
        word[i] = s->rule[outer];
        word[n - 1 - i] = outer;
    }
    return n;
}

static void tally(shown *s, size_t n)
{
    s->of_length[n]++;
    if (n > s->largest) s->largest = (unsigned)n;
}

/* every used row spells a palindrome of the record, no two the same, and there are as many as the record has */
static const char *words(const uint8_t *store, shown *s)
{
    static stretch all[LAYOUT_MOST];
    unsigned char word[2 * LAYOUT_MOST + 2];
    size_t stand = brute_list(s->rule, s->letters, s->size, all);
    if (s->count != stand) return "count: not the number of palindromes";
    for (size_t i = 0; i < stand; i++) tally(s, all[i].end - all[i].start);
    for (size_t r = 2; r < s->capacity + 2; r++) {
        if (!s->used[r]) continue;
        size_t n = spelling(store, s, r, word);
        if (n == 0) return "row: its inner rows lead nowhere";
        size_t first = brute_first(word, n, s->letters, s->size);
        if (first > s->size || !brute_palindrome(s->rule, word, n)) return "row: no palindrome of the record";
        s->rows[r].start = first;
        s->rows[r].end = first + n;
        for (size_t q = 2; q < r; q++)
            if (s->used[q] && s->rows[q].start == first && s->rows[q].end == first + n) return "row: two rows for one palindrome";
    }
    return NULL;
}

unsigned judge_row(const shown *s, const unsigned char *word, size_t n)
{
    if (n == 0) return 1;
    size_t first = brute_first(word, n, s->letters, s->size);
    for (unsigned r = 2; r < s->capacity + 2; r++)
        if (s->used[r] && s->rows[r].start == first && s->rows[r].end == first + n) return r;
    return 0;
}

size_t judge_around(const shown *s, size_t r, unsigned char letter, unsigned char *word)
{
    size_t n = r < 2 ? 0 : s->rows[r].end - s->rows[r].start, before = r != 0;
    word[0] = s->rule[letter];
    if (n > 0) memcpy(word + before, s->letters + s->rows[r].start, n);
    word[before + n] = letter;
    return before + n + 1;
}

static const char *fields(const uint8_t *store, const shown *s)
{
    static const unsigned roots[2][3] = {{0, 0, 0}, {1, 0, 0}};
    for (size_t r = 0; r < 2; r++)
        for (size_t f = 0; f < 3; f++)
            if (layout_cell(store, r, f) != roots[r][f]) return "roots: length, link or inner row";
    for (size_t r = 2; r < s->capacity + 2; r++) {
        if (!s->used[r]) continue;
        const unsigned char *w = s->letters + s->rows[r].start;
        size_t n = s->rows[r].end - s->rows[r].start, link = brute_link(s->rule, w, n);
        if (layout_cell(store, r, CELL_LENGTH) != n + 1) return "row: length";
        if (layout_cell(store, r, CELL_LINK) != judge_row(s, w + n - link, link)) return "row: link";
        if (layout_cell(store, r, CELL_INNER) != (n == 1 ? 0 : judge_row(s, w + 1, n - 2))) return "row: inner row";
    }
    return NULL;
}

/* the edge of a row by a letter leads to the row of the word around it, where the record has that word */
static const char *edges(const uint8_t *store, const shown *s)
{
    unsigned char word[LAYOUT_MOST + 2];
    for (size_t r = 0; r < s->capacity + 2; r++) {
        if (!s->used[r]) continue;
        for (size_t c = 0; c < 4; c++) {
            size_t m = judge_around(s, r, (unsigned char)"ACGT"[c], word);
            unsigned wanted = m > s->size || brute_first(word, m, s->letters, s->size) > s->size ? 0 : judge_row(s, word, m);
            if (layout_cell(store, r, CELL_EDGES + c) != wanted) return "row: edge";
        }
    }
    return NULL;
}

static const char *ends(const uint8_t *store, const shown *s)
{
    size_t n = brute_left(s->rule, s->letters, s->size), m = brute_right(s->rule, s->letters, s->size);
    if (layout_cell(store, 1, CELL_LEFT) != judge_row(s, s->letters, n)) return "ends: left";
    if (layout_cell(store, 1, CELL_RIGHT) != judge_row(s, s->letters + s->size - m, m)) return "ends: right";
    return NULL;
}

/* how many palindromes have each length, none a length above the number of letters, and the largest length */
static const char *carried(const uint8_t *store, const shown *s)
{
    for (size_t k = 1; k <= s->capacity; k++)
        if (layout_cell(store, k + 1, CELL_CARRIED) != s->of_length[k]) return "carried: how many of a length";
    if (layout_cell(store, 1, CELL_LARGEST) != s->largest) return "carried: the largest length";
    return NULL;
}

const char *judge(const uint8_t *store, size_t length, shown *s)
{
    const char *wrong;
    memset(s, 0, sizeof *s);
    if ((wrong = header(store, length, s)) || (wrong = letters(store, s)) || (wrong = sparse_set(store, s))) return wrong;
    if ((wrong = words(store, s)) || (wrong = free_rows(store, s)) || (wrong = fields(store, s))) return wrong;
    if ((wrong = edges(store, s)) || (wrong = ends(store, s)) || (wrong = carried(store, s))) return wrong;
    return NULL;
}

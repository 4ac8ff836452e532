/* The twin's fewest pieces, by series: one reading of the letters after the test, and for each right end a walk along the links
 * that takes a series at a time. The palindromes of a series grow shorter by the same difference, so that the places at which they
 * begin are, but for the last, those of the link's series at the end one difference earlier. The choice among these is kept with
 * the link, and is taken up where it was made for the place at which the palindrome begins. */
#include "links.h"
#include "twin.h"

/* What is kept with the first row of a series: the place at which its palindrome begins plus one, 0 where nothing is kept, the
 * chosen place, and the row after the series. In eight bytes a row's is found by a shift. */
struct series {
    _Alignas(8) uint16_t begins;
    uint16_t place, after;
};

/* For each end the fewest pieces of the letters before it and where the last of them begins, and for each row its series. */
struct cutting {
    uint16_t pieces[1025], starts[1025];
    struct series kept[ROWS_MOST];
};

/* Of two places the one with fewer pieces before it, the first where they are equal. */
static inline unsigned better(const struct cutting *c, unsigned a, unsigned q) { return c->pieces[q] < c->pieces[a] ? q : a; }

/* The series of a row whose palindrome ends at i: that of its link and one place more, or the row alone. */
static inline struct series series_of(const uint8_t *b, const struct cutting *c, unsigned i, unsigned row)
{
    unsigned stored = get(b, row, LENGTH), link = get(b, row, LINK), begins = i + 2 - stored;
    const struct series *of_link = &c->kept[link];
    if (of_link->begins == begins) {
        unsigned shorter = get(b, link, LENGTH), difference = stored - shorter;
        if (shorter == get(b, get(b, link, LINK), LENGTH) + difference) {
            unsigned after = of_link->after, last = i + 1 - difference - get(b, after, LENGTH);
            return (struct series){(uint16_t)begins, (uint16_t)better(c, of_link->place, last), (uint16_t)after};
        }
    }
    return (struct series){(uint16_t)begins, (uint16_t)(begins - 1), (uint16_t)link};
}

/* Where the last piece of the first i letters begins, from the row of the longest palindrome that ends them. */
static inline unsigned last_start(const uint8_t *b, struct cutting *c, unsigned i, unsigned row)
{
    unsigned start = i + 1 - get(b, row, LENGTH);
    while (row > EMPTY) {
        struct series s = series_of(b, c, i, row);
        c->kept[row] = s;
        start = better(c, start, s.place);
        row = s.after;
    }
    return start;
}

static void cut(const uint8_t *b, struct cutting *c)
{
    unsigned n = size_of(b), row = EMPTY;
    struct view v = view_of(b, RIGHT);
    memset(c->kept, 0, sizeof c->kept);
    c->pieces[0] = 0;
    for (unsigned k = 0; k < n; k++) {
        row = step_again(b, v, letter_partners[PLAIN], k, row);
        unsigned start = last_start(b, c, k + 1, row);
        c->starts[k + 1] = (uint16_t)start;
        c->pieces[k + 1] = c->pieces[start] + 1;
    }
}

/* Writes the ends of the pieces of the first `end` letters from the last one back, to just before `past`. */
static void put_ends(const struct cutting *c, uint16_t end, uint8_t *past)
{
    for (; end > 0; end = c->starts[end]) {
        past -= sizeof end;
        memcpy(past, &end, sizeof end);
    }
}

uint64_t twin_pieces(const uint8_t *store, size_t length, uint8_t *out, size_t out_length)
{
    struct cutting c;
    if (!twin_is_good(store, length))
        return 3;
    if (reading_of(store) != PLAIN)
        return 14;
    cut(store, &c);
    unsigned number = c.pieces[size_of(store)];
    if (out_length < 2 * (size_t)number)
        return 9;
    put_ends(&c, (uint16_t)size_of(store), out + 2 * (size_t)number);
    return answer(false, 0, number, 0);
}

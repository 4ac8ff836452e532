/* The twin of mirror_uncertain: from every centre, those in the middle first, as far as facing codes share a base, which serves
 * some choice, and as far as they are certain and equal, which serves every choice. */
#include "twin.h"

enum { ROOM = 1024, A = 1, C = 2, G = 4, T = 8 };

/* The set of bases of a code in either case, 0 for any other byte. */
#define CODE(capital, bases) [capital] = bases, [capital + 'a' - 'A'] = bases
static const uint8_t set_of[256] = {
    CODE('A', A),         CODE('C', C),         CODE('G', G),         CODE('T', T),         CODE('R', A | G),
    CODE('Y', C | T),     CODE('M', A | C),     CODE('K', G | T),     CODE('S', C | G),     CODE('W', A | T),
    CODE('B', C | G | T), CODE('D', A | G | T), CODE('H', A | C | T), CODE('V', A | C | G), CODE('N', A | C | G | T),
};

/* The set of each code, and the same of those with one base and the empty set of the others: two of these meet where the codes
 * are certain and equal. */
struct sets {
    uint8_t all[ROOM], certain[ROOM];
};

struct lengths {
    size_t some, every;
};

static inline size_t larger(size_t a, size_t b) { return a < b ? b : a; }

/* Whether all bytes are codes. */
static bool read_sets(const uint8_t *text, size_t n, struct sets *to)
{
    for (size_t i = 0; i < n; i++) {
        uint8_t set = set_of[text[i]];
        if (set == 0)
            return false;
        to->all[i] = set;
        to->certain[i] = (set & (set - 1)) == 0 ? set : 0;
    }
    return true;
}

/* How many pairs of facing places meet around a centre, of as many as there is room for; the first `known` do. */
static inline size_t radius(const uint8_t *sets, size_t left, size_t right, size_t room, size_t known)
{
    const uint8_t *facing = sets + left - known;
    size_t k = known;
    while (k < room && (facing[-1] & sets[right + k]) != 0) {
        facing--;
        k++;
    }
    return k;
}

/* One centre more. What serves every choice serves some, so the second search begins where the first ended; it is left out where
 * there is no room to beat the best. `pairs`, where it is given, is told how many were compared. */
static inline void at_centre(const struct sets *s, size_t left, size_t right, size_t room, struct lengths *best, size_t *pairs)
{
    size_t width = right - left, k = radius(s->certain, left, right, room, 0);
    best->every = larger(best->every, width + 2 * k);
    if (pairs)
        *pairs += k + (k < room);
    if (width + 2 * room <= best->some)
        return;
    size_t m = radius(s->all, left, right, room, k);
    best->some = larger(best->some, width + 2 * m);
    if (pairs)
        *pairs += m - k + (m < room);
}

/* The two centres that are t half places from the middle have room for n - t places, so the search ends once that cannot beat the
 * best for every choice. It is compiled into either caller, so that nothing is counted where no number is asked for. */
static inline __attribute__((always_inline)) struct lengths search(const struct sets *s, size_t n, size_t *pairs)
{
    struct lengths best = {0, 0};
    for (size_t t = 0; best.every + t < n; t++) {
        size_t room = (n - t) / 2;
        at_centre(s, room, n - t - room, room, &best, pairs);
        at_centre(s, room + t, n - room, room, &best, pairs);
    }
    return best;
}

uint64_t twin_uncertain(const uint8_t *text, size_t length)
{
    struct sets s;
    if (length > ROOM)
        return 5;
    if (!read_sets(text, length, &s))
        return 4;
    struct lengths best = search(&s, length, NULL);
    return answer(false, 0, (unsigned)best.some, (unsigned)best.every);
}

size_t twin_uncertain_pairs(const uint8_t *text, size_t length)
{
    struct sets s;
    size_t pairs = 0;
    if (length <= ROOM && read_sets(text, length, &s))
        search(&s, length, &pairs);
    return pairs;
}

/* The twin's list of the palindromes as BED lines: the exact length first, since a refusal may touch no byte, then
 * the lines, with a mark at the rank of each row that was met. The marks of the lines are bits of the scratch. To find out the
 * length there is no more room than the longest line has bytes, so the letters are read once for each window of ranks whose
 * marks have room there. */
#include "links.h"
#include "twin.h"

/* An identifier of 32 bytes, two numbers of four digits, two tabs and an LF. */
enum { WINDOW_BYTES = 43 };

static size_t digits(unsigned v)
{
    size_t n = 1;
    for (; v >= 10; v /= 10)
        n++;
    return n;
}

static uint8_t *put_decimal(uint8_t *at, unsigned v)
{
    uint8_t *end = at + digits(v), *p = end;
    for (; v >= 10; v /= 10)
        *--p = (uint8_t)('0' + v % 10);
    *--p = (uint8_t)('0' + v);
    return end;
}

static uint8_t *put_line(uint8_t *at, const uint8_t *name, size_t length, unsigned start, unsigned end)
{
    memcpy(at, name, length);
    at += length;
    *at++ = '\t';
    at = put_decimal(at, start);
    *at++ = '\t';
    at = put_decimal(at, end);
    *at++ = '\n';
    return at;
}

/* Marks for the ranks from `from` on, a bit for each, eight to a byte. */
struct window {
    uint8_t *bits;
    unsigned from, ranks;
};

/* Marks the row; whether it is a palindrome's, has its rank in the window and was met for the first time. */
static inline bool first_met(const uint8_t *b, struct window w, unsigned row)
{
    if (row == EMPTY)
        return false;
    unsigned at = get(b, row, RANK) - w.from; /* of a rank before the window a number beyond all windows */
    if (at >= w.ranks)
        return false;
    uint8_t bit = (uint8_t)(1u << at % 8), *byte = &w.bits[at / 8];
    bool first = !(*byte & bit);
    *byte |= bit;
    return first;
}

/* The length of the lines whose palindromes have their ranks in a window: one reading of the letters. */
static size_t window_length(const uint8_t *b, size_t name_length, unsigned from)
{
    uint8_t bits[WINDOW_BYTES] = {0};
    struct window window = {bits, from, 8 * WINDOW_BYTES};
    unsigned n = size_of(b), row = EMPTY;
    struct view v = view_of(b, RIGHT);
    const uint8_t *partners = letter_partners[reading_of(b)];
    size_t total = 0;
    for (unsigned k = 0; k < n; k++) {
        row = step_again(b, v, partners, k, row);
        if (first_met(b, window, row))
            total += name_length + digits(k + 2 - get(b, row, LENGTH)) + digits(k + 1) + 3;
    }
    return total;
}

/* Window by window, until every rank in use was in one. */
static size_t listing_length(const uint8_t *b, size_t name_length)
{
    size_t total = 0;
    for (unsigned from = 0; from < count_of(b); from += 8 * WINDOW_BYTES)
        total += window_length(b, name_length, from);
    return total;
}

/* How many bytes of scratch the list needs: a bit for each letter, since there are no more palindromes than letters. */
static size_t scratch_size(const uint8_t *b) { return ((size_t)size_of(b) + 7) / 8; }

size_t bare_list(const uint8_t *b, const uint8_t *name, size_t name_length, uint8_t *scratch, uint8_t *out)
{
    unsigned n = size_of(b), row = EMPTY;
    struct window all = {scratch, 0, n};
    struct view v = view_of(b, RIGHT);
    const uint8_t *partners = letter_partners[reading_of(b)];
    uint8_t *at = out;
    memset(scratch, 0, scratch_size(b));
    for (unsigned k = 0; k < n; k++) {
        row = step_again(b, v, partners, k, row);
        if (first_met(b, all, row))
            at = put_line(at, name, name_length, k + 2 - get(b, row, LENGTH), k + 1);
    }
    memset(scratch, 0, scratch_size(b));
    return (size_t)(at - out);
}

bool twin_is_identifier(const uint8_t *name, size_t length)
{
    if (length < 1 || length > 32)
        return false;
    for (size_t i = 0; i < length; i++) {
        uint8_t c = name[i];
        if (!((c >= 'A' && c <= 'Z') || (c >= 'a' && c <= 'z') || (c >= '0' && c <= '9') || c == '_'))
            return false;
    }
    return true;
}

uint64_t twin_list(const uint8_t *store, size_t length, const uint8_t *name, size_t name_length, uint8_t *scratch,
                   size_t scratch_length, uint8_t *out, size_t out_length)
{
    if (!twin_is_good(store, length))
        return 3;
    if (!twin_is_identifier(name, name_length))
        return 10;
    if (scratch_length < scratch_size(store) || out_length < listing_length(store, name_length))
        return 9;
    return answer(false, 0, (unsigned)bare_list(store, name, name_length, scratch, out), 0);
}

/* The twin's page of a record as in the GenBank flat file: the exact length first, since a refusal may touch no byte, then line by
 * line. The letters of a good store are capitals, so one bit makes each small, in a whole group in two wide steps. */
#include "twin.h"

enum { GROUP = 10, LINE = 60, COLUMNS = 9 };
#define SMALL UINT64_C(0x2020202020202020)

static const uint8_t first_line[] = {'O', 'R', 'I', 'G', 'I', 'N', '\n'}, last_line[] = {'/', '/', '\n'};

/* The two outer lines, the letters, a blank before each group, and nine columns and an LF for each line. */
static size_t page_length(size_t n)
{
    return sizeof first_line + sizeof last_line + n + (n + GROUP - 1) / GROUP + (COLUMNS + 1) * ((n + LINE - 1) / LINE);
}

static inline uint8_t *put_bytes(uint8_t *at, const uint8_t *bytes, size_t n)
{
    memcpy(at, bytes, n);
    return at + n;
}

/* A place, right-justified. */
static uint8_t *put_place(uint8_t *at, unsigned place)
{
    uint8_t *end = at + COLUMNS;
    memset(at, ' ', COLUMNS);
    for (uint8_t *p = end; place > 0; place /= 10)
        *--p = (uint8_t)('0' + place % 10);
    return end;
}

/* A blank and a whole group. */
static inline uint8_t *put_group(uint8_t *at, const uint8_t *w)
{
    uint64_t eight;
    uint16_t two;
    memcpy(&eight, w, sizeof eight);
    memcpy(&two, w + sizeof eight, sizeof two);
    eight |= SMALL;
    two |= (uint16_t)SMALL;
    *at++ = ' ';
    memcpy(at, &eight, sizeof eight);
    memcpy(at + sizeof eight, &two, sizeof two);
    return at + GROUP;
}

/* The groups of at most sixty letters, the last of which may be shorter. */
static uint8_t *put_groups(uint8_t *at, const uint8_t *w, size_t n)
{
    for (; n >= GROUP; n -= GROUP, w += GROUP)
        at = put_group(at, w);
    if (n > 0)
        *at++ = ' ';
    for (; n > 0; n--)
        *at++ = *w++ | (uint8_t)SMALL;
    return at;
}

static size_t bare_genbank(const uint8_t *b, uint8_t *out)
{
    const uint8_t *w = letters_of(b);
    size_t n = size_of(b);
    uint8_t *at = put_bytes(out, first_line, sizeof first_line);
    for (size_t from = 0; from < n; from += LINE) {
        at = put_place(at, (unsigned)from + 1);
        at = put_groups(at, w + from, n - from < LINE ? n - from : LINE);
        *at++ = '\n';
    }
    at = put_bytes(at, last_line, sizeof last_line);
    return (size_t)(at - out);
}

uint64_t twin_genbank(const uint8_t *store, size_t length, uint8_t *out, size_t out_length)
{
    if (!twin_is_good(store, length))
        return 3;
    if (out_length < page_length(size_of(store)))
        return 9;
    return answer(false, 0, (unsigned)bare_genbank(store, out), 0);
}

/* The twin's marks for a candidate's sheet: one reading of the letters after the test, then the sheet line by line, with a bit at
 * the rank of each row that a right line named. */
#include "stretches.h"
#include "twin.h"

struct line {
    bool agrees;
    unsigned start, end;
};

struct counts {
    uint64_t right, repeated, wrong, missing;
};

/* Whether n bytes are a number: one to four digits with no needless zero in front. */
static inline bool is_number(const uint8_t *at, size_t n, unsigned *to)
{
    unsigned said = 0;
    if (n < 1 || n > 4 || (n > 1 && *at == '0'))
        return false;
    for (size_t i = 0; i < n; i++) {
        if (at[i] < '0' || at[i] > '9')
            return false;
        said = 10 * said + (at[i] - '0');
    }
    *to = said;
    return true;
}

/* Reads a line; what stands behind it, NULL where it is none. Its end is looked for first, then the fields before that, as the
 * library does. */
static inline const uint8_t *read_fields(const uint8_t *at, const uint8_t *past, const uint8_t *name, size_t length, struct line *to)
{
    const uint8_t *stop = memchr(at, '\n', (size_t)(past - at));
    const uint8_t *first = stop ? memchr(at, '\t', (size_t)(stop - at)) : NULL;
    const uint8_t *second = first ? memchr(first + 1, '\t', (size_t)(stop - first - 1)) : NULL;
    if (!second || !is_number(first + 1, (size_t)(second - first - 1), &to->start)
        || !is_number(second + 1, (size_t)(stop - second - 1), &to->end))
        return NULL;
    to->agrees = (size_t)(first - at) == length && memcmp(at, name, length) == 0;
    return stop + 1;
}

/* Reads a number with this byte behind it; what stands behind both, NULL where that is not so. */
static inline const uint8_t *number_before(const uint8_t *at, const uint8_t *past, uint8_t behind, unsigned *to)
{
    const uint8_t *from = at;
    unsigned said = 0;
    while (at < past && *at >= '0' && *at <= '9')
        said = 10 * said + (*at++ - '0');
    size_t digits = (size_t)(at - from);
    if (digits < 1 || digits > 4 || (digits > 1 && *from == '0') || at == past || *at != behind)
        return NULL;
    *to = said;
    return at + 1;
}

/* The same by who is free to look at each byte once. */
static inline const uint8_t *read_once(const uint8_t *at, const uint8_t *past, const uint8_t *name, size_t length, struct line *to)
{
    const uint8_t *from = at;
    while (at < past && *at != '\t' && *at != '\n')
        at++;
    if (at == past || *at == '\n')
        return NULL;
    to->agrees = (size_t)(at - from) == length && memcmp(from, name, length) == 0;
    at = number_before(at + 1, past, '\t', &to->start);
    return at ? number_before(at, past, '\n', &to->end) : NULL;
}

/* Marks a line: right where its row is one and was not named above. */
static inline void mark_line(const uint8_t *b, const struct stretches *s, uint8_t *named, struct line x, struct counts *to)
{
    unsigned steps, row = IMAGINARY;
    if (x.agrees && x.start < x.end && x.end <= size_of(b))
        row = row_of_stretch(b, s, x.start, x.end, &steps);
    if (row == IMAGINARY) {
        to->wrong++;
        return;
    }
    unsigned rank = get(b, row, RANK);
    uint8_t bit = (uint8_t)(1u << rank % 8), *byte = &named[rank / 8];
    if (*byte & bit)
        to->repeated++;
    else
        to->right++;
    *byte |= bit;
}

typedef const uint8_t *reader(const uint8_t *at, const uint8_t *past, const uint8_t *name, size_t length, struct line *to);

/* What a call is given beside the store. */
struct handed_in {
    const uint8_t *name, *sheet;
    size_t name_length, length;
};

/* Whether all is lines. It is compiled into either caller, with its reader. */
static inline __attribute__((always_inline)) bool mark_sheet(const uint8_t *b, struct handed_in in, reader *read, struct counts *to)
{
    struct stretches s;
    uint8_t named[128] = {0};
    const uint8_t *at = in.sheet, *past = in.sheet + in.length;
    if (in.length > 0)
        find_ends(b, &s);
    while (at < past) {
        struct line x;
        at = read(at, past, in.name, in.name_length, &x);
        if (!at)
            return false;
        mark_line(b, &s, named, x, to);
    }
    to->missing = count_of(b) - to->right;
    return true;
}

static inline __attribute__((always_inline)) uint64_t mark(const uint8_t *store, size_t length, struct handed_in in, reader *read,
                                                           uint8_t *marks, size_t marks_length)
{
    struct counts counts = {0, 0, 0, 0};
    if (!twin_is_good(store, length))
        return 3;
    if (!twin_is_identifier(in.name, in.name_length))
        return 10;
    if (!mark_sheet(store, in, read, &counts))
        return 13;
    if (marks_length < sizeof counts)
        return 9;
    memcpy(marks, &counts, sizeof counts);
    return answer(counts.repeated == 0 && counts.wrong == 0 && counts.missing == 0, 0, 0, 0);
}

uint64_t twin_mark(const uint8_t *store, size_t length, const uint8_t *name, size_t name_length, const uint8_t *sheet,
                   size_t sheet_length, uint8_t *marks, size_t marks_length)
{
    struct handed_in in = {name, sheet, name_length, sheet_length};
    return mark(store, length, in, read_fields, marks, marks_length);
}

uint64_t twin_mark_at_once(const uint8_t *store, size_t length, const uint8_t *name, size_t name_length, const uint8_t *sheet,
                           size_t sheet_length, uint8_t *marks, size_t marks_length)
{
    struct handed_in in = {name, sheet, name_length, sheet_length};
    return mark(store, length, in, read_once, marks, marks_length);
}

uint64_t bare_read(const uint8_t *name, size_t name_length, const uint8_t *sheet, size_t length)
{
    uint64_t sum = 0;
    const uint8_t *at = sheet, *past = sheet + length;
    while (at < past) {
        struct line x;
        at = read_once(at, past, name, name_length, &x);
        if (!at)
            return 0;
        sum += x.agrees + x.start + x.end;
    }
    return sum;
}

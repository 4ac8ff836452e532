/* The library cuts a line at its tabs and reads a number from its digits, and follows the record's table; here each byte leads from one
 * state to the next, no line is ever cut, and a line's stretch is held against every repeat that a try of all stretches finds. */
#include "second_marker.h"
#include "brute.h"
#include <string.h>

/* ---- the sheet */

/* What a byte is to a line, and what has been read of the line so far: nothing, some of its identifier, a tab, the number 0, one to
 * four digits of a number that begins with no 0; the same behind the second tab; and what no line begins with. */
enum { TAB, LF, ZERO, DIGIT, OTHER, BYTE_KINDS };
enum { LINE, NAME, START, START_0, START_1, START_2, START_3, START_4, END, END_0, END_1, END_2, END_3, END_4, NONE, STATES };

static const unsigned char next_state[STATES][BYTE_KINDS] = {
    /*            TAB    LF    ZERO     DIGIT    OTHER */
    [LINE]    = {START, NONE, NAME,    NAME,    NAME},
    [NAME]    = {START, NONE, NAME,    NAME,    NAME},
    [START]   = {NONE,  NONE, START_0, START_1, NONE},
    [START_0] = {END,   NONE, NONE,    NONE,    NONE},
    [START_1] = {END,   NONE, START_2, START_2, NONE},
    [START_2] = {END,   NONE, START_3, START_3, NONE},
    [START_3] = {END,   NONE, START_4, START_4, NONE},
    [START_4] = {END,   NONE, NONE,    NONE,    NONE},
    [END]     = {NONE,  NONE, END_0,   END_1,   NONE},
    [END_0]   = {NONE,  LINE, NONE,    NONE,    NONE},
    [END_1]   = {NONE,  LINE, END_2,   END_2,   NONE},
    [END_2]   = {NONE,  LINE, END_3,   END_3,   NONE},
    [END_3]   = {NONE,  LINE, END_4,   END_4,   NONE},
    [END_4]   = {NONE,  LINE, NONE,    NONE,    NONE},
    [NONE]    = {NONE,  NONE, NONE,    NONE,    NONE},
};

static unsigned byte_kind(uint8_t byte)
{
    switch (byte) {
    case '\t': return TAB;
    case '\n': return LF;
    case '0': return ZERO;
    case '1': case '2': case '3': case '4': case '5': case '6': case '7': case '8': case '9': return DIGIT;
    default: return OTHER;
    }
}

typedef struct { const uint8_t *name; size_t name_length, start, end; } line;

/* Reads the bytes from *at on up to the end of a line, and says whether there was one. The sheet's state is then LINE, and so it is
 * where nothing is left of a sheet that is one. */
static int next_line(const uint8_t *sheet, size_t length, size_t *at, unsigned *state, line *l)
{
    l->name = sheet + *at;
    l->name_length = l->start = l->end = 0;
    while (*at < length && *state != NONE) {
        uint8_t byte = sheet[(*at)++];
        *state = next_state[*state][byte_kind(byte)];
        if (*state == LINE) return 1;
        if (*state == NAME) l->name_length++;
        else if (*state > START && *state < END) l->start = 10 * l->start + (size_t)(byte - '0');
        else if (*state > END && *state < NONE) l->end = 10 * l->end + (size_t)(byte - '0');
    }
    return 0;
}

int second_is_sheet(const uint8_t *sheet, size_t length)
{
    size_t at = 0;
    unsigned state = LINE;
    line l;
    while (next_line(sheet, length, &at, &state, &l)) {}
    return state == LINE;
}

/* ---- the repeats */

/* the letters that were held against a sheet last, and their repeats, each at its first place: many sheets are marked against one
 * record, and the tries take long */
static struct {
    const unsigned char *rule;
    uint8_t letters[BRUTE_MOST];
    size_t n;
    stretch repeats[BRUTE_MOST];
    size_t count;
} tried;

static void try_letters(const unsigned char *rule, const uint8_t *letters, size_t n)
{
    if (tried.rule == rule && tried.n == n && memcmp(tried.letters, letters, n) == 0) return;
    memcpy(tried.letters, letters, n);
    tried.rule = rule;
    tried.n = n;
    tried.count = brute_list(rule, letters, n, tried.repeats);
}

/* whether the line's stretch reads as the repeat of this number does */
static int is_repeat(const line *l, size_t i)
{
    size_t start = tried.repeats[i].start, length = tried.repeats[i].end - start;
    return l->end - l->start == length && memcmp(tried.letters + l->start, tried.letters + start, length) == 0;
}

/* whether the identifier agrees and the places are those of a stretch of the record */
static int has_stretch(const line *l, const uint8_t *name, size_t name_length)
{
    return l->name_length == name_length && memcmp(l->name, name, name_length) == 0 && l->start < l->end && l->end <= tried.n;
}

/* the number of the repeat that the line names, and the number of all of them where it names none */
static size_t named_by(const line *l, const uint8_t *name, size_t name_length)
{
    size_t i = 0;
    if (!has_stretch(l, name, name_length)) return tried.count;
    while (i < tried.count && !is_repeat(l, i)) i++;
    return i;
}

/* ---- the marks */

second_counts second_marks(const unsigned char *rule, const uint8_t *letters, size_t n, const uint8_t *name, size_t name_length,
                           const uint8_t *sheet, size_t length)
{
    static unsigned char met[BRUTE_MOST];
    second_counts counts = {0, 0, 0, 0};
    size_t at = 0, i;
    unsigned state = LINE;
    line l;
    try_letters(rule, letters, n);
    memset(met, 0, sizeof met);
    while (next_line(sheet, length, &at, &state, &l)) {
        i = named_by(&l, name, name_length);
        if (i == tried.count) counts.wrong++;
        else if (met[i]) counts.repeated++;
        else counts.right++, met[i] = 1;
    }
    for (i = 0; i < tried.count; i++) counts.missing += !met[i];
    return counts;
}

/* No sheet with more lines than a record can have repeats is full, since each line needs a repeat of its own. */
int second_full(const unsigned char *rule, const uint8_t *letters, size_t n, const uint8_t *name, size_t name_length,
                const uint8_t *sheet, size_t length)
{
    static line lines[BRUTE_MOST];
    size_t count = 0, at = 0;
    unsigned state = LINE;
    line l;
    try_letters(rule, letters, n);
    while (next_line(sheet, length, &at, &state, &l)) {
        if (count == BRUTE_MOST || !has_stretch(&l, name, name_length)) return 0;
        if (!brute_palindrome(rule, letters + l.start, l.end - l.start)) return 0;
        lines[count++] = l;
    }
    for (size_t i = 0; i < tried.count; i++) {
        size_t names = 0;
        for (size_t k = 0; k < count; k++) names += (size_t)is_repeat(&lines[k], i);
        if (names != 1) return 0;
    }
    return 1;
}

void second_mark_bytes(second_counts counts, uint8_t bytes[32])
{
    const uint64_t all[] = {counts.right, counts.repeated, counts.wrong, counts.missing};
    for (unsigned i = 0; i < 32; i++) bytes[i] = (uint8_t)(all[i / 8] >> 8 * (i % 8));
}

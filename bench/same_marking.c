/* Whether the twins give the library's marks: the sheets that are timed, on every word in either reading, sheets of random lines,
 * some of which are right and some no lines, every byte in each place of a short sheet, bytes left out and put in and sheets cut off,
 * with every size of the marks about the need and with identifiers that are none, go through all, and every answer and every lent
 * byte must agree. Prints how many sheets were compared, and ends with 1 at the first difference. */
#include <stdio.h>
#include <stdlib.h>
#include <string.h>

#include "calls.h"
#include "sheets.h"
#include "twin.h"
#include "words.h"

enum { PAINT = 0x5a, ROOM = MIRROR_MARKS_SIZE + 3, SHORT = 40, SHORT_SHEETS = 20000, EDITED_LINES = 6, PARTS = 9 };

static struct sitting s;
static uint8_t sheet[SHEET_MOST];
static unsigned long compared, refused, full;

/* One sheet with so many bytes for the marks, which are painted, so that they show what is written behind them or by a refusal. */
static void compare_room(const uint8_t *name, size_t name_length, size_t length, size_t room, const char *where)
{
    uint8_t ours[ROOM], theirs[ROOM];
    memset(ours, PAINT, ROOM);
    memset(theirs, PAINT, ROOM);
    uint64_t told = mirror_mark(s.store, s.length, name, name_length, sheet, length, ours, room);
    uint64_t twins = twin_mark(s.store, s.length, name, name_length, sheet, length, theirs, room);
    bool same = told == twins && memcmp(ours, theirs, ROOM) == 0;
    memset(theirs, PAINT, ROOM);
    uint64_t at_once = twin_mark_at_once(s.store, s.length, name, name_length, sheet, length, theirs, room);
    compared++;
    refused += mirror_refusal(told) != 0;
    full += mirror_flag(told);
    if (same && told == at_once && memcmp(ours, theirs, ROOM) == 0)
        return;
    printf("bench/same_marking: %s differs: %016llx against %016llx\n", where, (unsigned long long)told, (unsigned long long)twins);
    exit(1);
}

static void compare(size_t length, const char *where) { compare_room(NAME, length, ROOM, where); }

static void timed_sheets(int word, int reading, size_t n)
{
    seat(&s, word, reading, n, n);
    for (int which = 0; which < SHEETS; which++)
        compare(make_sheet(which, s.store, sheet), sheet_names[which]);
}

/* A part of a line by chance: most are what a line has there, some make it wrong or none. */
static const char *part(int place, uint32_t r)
{
    static const char *const names[] = {IDENTIFIER, IDENTIFIER, IDENTIFIER, "chr1_sampl", "chr1_samplf", "", "chr1 sample", "x\ny",
                                        "\x80"};
    static const char *const behind[] = {"\t", "\t", "\t", "\t", "\t", "\t", "\t\t", " ", ""};
    static const char *const ends[] = {"\n", "\n", "\n", "\n", "\n", "\n", "\r\n", "\t\n", ""};
    return (place == 0 ? names : place == 1 ? behind : ends)[r % PARTS];
}

/* A number by chance, most of them small; a few are none, or no place of the record. */
static size_t put_number(uint8_t *at, unsigned n, uint32_t r)
{
    static const char *const odd[] = {"00", "01", "+1", "-0", "", "12345", "9999", "1024", "1025", "0001", "1a", "/", ":"};
    if (r % 64 == 0)
        return (size_t)sprintf((char *)at, "%s", odd[r / 64 % (sizeof odd / sizeof *odd)]);
    return (size_t)sprintf((char *)at, "%u", r / 64 % (n + 2));
}

static size_t put_random_line(uint8_t *at, unsigned n, uint32_t *seed, bool odd)
{
    uint32_t r = odd ? next_random(seed) >> 4 : 0;
    size_t length = (size_t)sprintf((char *)at, "%s%s", part(0, r), part(1, r / PARTS));
    length += put_number(at + length, n, next_random(seed) >> 4);
    length += (size_t)sprintf((char *)at + length, "%s", part(1, r / 81));
    length += put_number(at + length, n, next_random(seed) >> 4);
    return length + (size_t)sprintf((char *)at + length, "%s", part(2, r / 729));
}

/* Sheets of up to six lines for short records, in which many stretches are palindromes and many of these the same; every other sheet
 * may have a line whose parts are odd. */
static void random_sheets(int word, int reading)
{
    uint32_t seed = (uint32_t)word + 1;
    for (int i = 0; i < SHORT_SHEETS; i++) {
        size_t n = (size_t)i % SHORT, length = 0;
        if (i % 16 == 0)
            seat(&s, word, reading, n, n + 1);
        for (uint32_t lines = (next_random(&seed) >> 8) % 7; lines > 0; lines--)
            length += put_random_line(sheet + length, (unsigned)n, &seed, i % 2 && lines == 1);
        compare(length, "random lines");
    }
}

/* Each byte value in a place of a sheet, and put in before it; then the place left out, and the sheet cut off before it. */
static void edit_place(const uint8_t *good, size_t length, size_t place)
{
    for (int byte = 0; byte < 256; byte++) {
        memcpy(sheet, good, length);
        sheet[place] = (uint8_t)byte;
        compare(length, "another byte");
        memmove(sheet + place + 1, good + place, length - place);
        compare(length + 1, "a byte more");
    }
    memcpy(sheet, good, length);
    memmove(sheet + place, good + place + 1, length - place - 1);
    compare(length - 1, "a byte less");
    memcpy(sheet, good, length);
    compare(place, "a sheet that is cut off");
}

/* The first lines of a list, edited in each place. */
static void edits(int word, int reading)
{
    uint8_t good[EDITED_LINES * LINE_MOST];
    size_t length = 0;
    seat(&s, word, reading, EDITED_LINES, EDITED_LINES);
    for (size_t lines = 0; length < s.sheet_length && lines < EDITED_LINES; length++)
        lines += s.sheet[length] == '\n';
    memcpy(good, s.sheet, length);
    for (size_t place = 0; place < length; place++)
        edit_place(good, length, place);
}

/* Marks of every size about the need, for a sheet that is good, for none and for one that is refused; and identifiers that are none,
 * and others that are one. */
static void rooms_and_names(int word, int reading)
{
    static const char *const names[] = {"", "chr1", "chr1 sample", "chr1\tsample", "chr1-sample", "_", "z",
                                        "A23456789012345678901234567890_2", "A23456789012345678901234567890_23"};
    seat(&s, word, reading, 60, 64);
    memcpy(sheet, s.sheet, s.sheet_length);
    size_t lengths[] = {0, s.sheet_length, s.sheet_length == 0 ? 0 : s.sheet_length - 1};
    for (size_t i = 0; i < 3; i++) {
        for (size_t room = 0; room <= ROOM; room++)
            compare_room(NAME, lengths[i], room, "room about the need");
        for (size_t k = 0; k < sizeof names / sizeof *names; k++)
            compare_room((const uint8_t *)names[k], strlen(names[k]), lengths[i], ROOM - k % 5, "another identifier");
    }
}

int main(void)
{
    static const size_t sizes[] = {1, 2, 125, 1000, 1024};
    for (int word = 0; word < ALL_WORDS; word++)
        for (int reading = PLAIN; reading <= INVERTED; reading++) {
            for (size_t i = 0; i < sizeof sizes / sizeof *sizes; i++)
                timed_sheets(word, reading, sizes[i]);
            random_sheets(word, reading);
            edits(word, reading);
            rooms_and_names(word, reading);
        }
    printf("bench/same_marking: %lu sheets gave equal answers and equal marks, %lu of them refused by all and %lu with full marks\n",
           compared, refused, full);
    return 0;
}

/* Marking a candidate's list, 02 (xi), through the C boundary: the answer, the 32 bytes of the mark sheet and every other lent byte,
 * against a second program that tries every stretch (second_marker.h), in records of both readings, turned ones, and such that move
 * on at both ends. A record's own list has full marks, and so it has in any order and with each line at another place of its repeat;
 * it has not without any one line, with any one of them again, or with a digit changed. Then own lists with a byte changed, dropped
 * or put in; every line of one stretch, and lines by chance; other identifiers than the one given; what is no sheet, by hand and with
 * every byte in every field; a million lines. Right and missing together are the record's repeats; right, repeated and wrong the
 * sheet's lines. The counts go into mark sheets of many sizes that hold other bytes before (written.h). Of what is wrong with a call
 * the first in the order 3, 10, 13, 9 is told, and nothing is written. The buffers end at a guard page or begin right after one.
 * Usage: marking [seed] */
#include "brute.h"
#include "followed.h"
#include "guard.h"
#include "mirror.h"
#include "random.h"
#include "second_marker.h"
#include "words.h"
#include "written.h"
#include <stdio.h>
#include <stdlib.h>
#include <string.h>

enum { MOST = WORD_LENGTH, MARKS = 32, PAPER = 7 * 1024 * 1024, LONGEST_TRIED = 5, FEW = 12, SHORT_LIST = 80, MANY = 1000000 };
enum { NAME_SLOT = FOLLOWED_SLOT + 2, SHEET_SLOT, LIST_SLOT, SCRATCH_SLOT };

static struct { const uint8_t *bytes; size_t length; } name, sheet; /* as they are lent */
static uint8_t name_was[64];                                        /* what the name must stay */
static struct { uint8_t bytes[PAPER]; size_t length; } paper;       /* a sheet that is being written */
static struct { stretch at[MOST]; size_t count; } own;              /* the lines of the record's own list */
static second_counts counts; /* of the sheet marked last, none where it was refused, and whether it has full marks */
static int full;
/* what was met: sheets, those refused with 13, those with full marks and some line; lines that are right and end the record, and such
 * that start above 255; lines of the record's own list that stand at another place, and such that are repeated there; rows that link to
 * a higher one */
static unsigned long sheets, no_sheets, full_ones[READINGS], ending[READINGS], wide, moved, again, upward[READINGS];
static uint64_t most_repeated, most_wrong, all_lines;

/* ---- one sheet */

static void give_name(const void *bytes, size_t n)
{
    name.bytes = guarded(NAME_SLOT, bytes, n);
    name.length = n;
    memcpy(name_was, bytes, n);
}

static uint64_t mark_now(const uint8_t *store, size_t length, uint8_t *marks, size_t marks_length)
{
    return mirror_mark(store, length, name.bytes, name.length, sheet.bytes, sheet.length, marks, marks_length);
}

static int is_name(void)
{
    static const char allowed[] = "ABCDEFGHIJKLMNOPQRSTUVWXYZabcdefghijklmnopqrstuvwxyz0123456789_";
    for (size_t i = 0; i < name.length; i++)
        if (memchr(allowed, name.bytes[i], sizeof allowed - 1) == NULL) return 0;
    return name.length >= 1 && name.length <= 32;
}

/* what the call must answer and write for the sheet that is lent */
static void want(void)
{
    int taken = is_name() && second_is_sheet(sheet.bytes, sheet.length);
    counts = (second_counts){0, 0, 0, 0};
    full = 0;
    asked.answer = is_name() ? MIRROR_NO_SHEET : MIRROR_IDENTIFIER;
    asked.need = 0; /* the size of the mark sheet is looked at last */
    if (!taken) return;
    counts = second_marks(record.rule, record.letters, record.size, name.bytes, name.length, sheet.bytes, sheet.length);
    full = second_full(record.rule, record.letters, record.size, name.bytes, name.length, sheet.bytes, sheet.length);
    asked.answer = (uint64_t)full << 8;
    second_mark_bytes(counts, asked.bytes);
    asked.need = MARKS;
}

/* the laws, of what was written last as the header reads it */
static void obeys(void)
{
    uint64_t right = mirror_right(asked.out), repeated = mirror_repeated(asked.out), wrong = mirror_wrong(asked.out), lines = 0;
    uint64_t repeats = mirror_first(mirror_count(record.store, record.length));
    for (size_t i = 0; i < sheet.length; i++) lines += sheet.bytes[i] == '\n';
    must("right and missing are not all repeats", repeats, right + mirror_missing(asked.out));
    must("right, repeated and wrong are not all lines", lines, right + repeated + wrong);
    full_ones[record.reading] += full && lines > 0;
    all_lines += lines;
    if (repeated > most_repeated) most_repeated = repeated;
    if (wrong > most_wrong) most_wrong = wrong;
}

/* a sheet of these bytes, with a mark sheet that is long enough and, now and then, with one that is not */
static void mark(const uint8_t *bytes, size_t n)
{
    static const size_t enough[] = {MARKS, MARKS + 1, 2 * MARKS}, too_few[] = {0, 1, MARKS - 1};
    sheet.bytes = guarded(SHEET_SLOT, bytes, n);
    sheet.length = n;
    want();
    if (sheets % 4 == 0) written_ask(too_few[sheets / 4 % 3]);
    written_ask(enough[sheets % 3]);
    if (asked.need > 0) obeys();
    must("a byte of the sheet changed", 0, memcmp(sheet.bytes, bytes, n) != 0);
    must("a byte of the identifier changed", 0, memcmp(name.bytes, name_was, name.length) != 0);
    sheets++;
    no_sheets += asked.answer == MIRROR_NO_SHEET;
}

static void mark_paper(void)
{
    mark(paper.bytes, paper.length);
}

static void is_full(const char *what, int wanted)
{
    mark_paper();
    must(what, (uint64_t)wanted, (uint64_t)full);
}

static void put_named(const char *by, size_t length, stretch at)
{
    memcpy(paper.bytes + paper.length, by, length);
    paper.length += length;
    paper.length += (size_t)sprintf((char *)paper.bytes + paper.length, "\t%zu\t%zu\n", at.start, at.end);
}

static void put(stretch at)
{
    put_named((const char *)name.bytes, name.length, at);
}

/* ---- the record's own list */

/* the list that the library writes, and the stretches of its lines */
static void list_own(void)
{
    size_t scratch = MIRROR_LIST_SCRATCH(record.size), room = MIRROR_LIST_SIZE(record.size);
    uint8_t *out = guard_room(LIST_SLOT, room), *marked = guard_room(SCRATCH_SLOT, scratch);
    uint64_t answer = mirror_list(record.store, record.length, name.bytes, name.length, marked, scratch, out, room);
    must("the list is refused", 0, mirror_refusal(answer));
    paper.length = mirror_first(answer);
    memcpy(paper.bytes, out, paper.length);
    paper.bytes[paper.length] = 0;
    own.count = 0;
    for (char *at = (char *)paper.bytes; *at; at++) {
        size_t start = strtoul(at + name.length + 1, &at, 10);
        own.at[own.count++] = (stretch){start, strtoul(at + 1, &at, 10)};
    }
}

/* where its repeat stands next, from the front again after the last place */
static stretch elsewhere(stretch at)
{
    size_t n = at.end - at.start, start = at.start;
    do start = start + n < record.size ? start + 1 : 0;
    while (memcmp(record.letters + start, record.letters + at.start, n) != 0);
    return (stretch){start, start + n};
}

/* the lines of the list, the one of this number left out; all of them where there is none */
static void put_all_but(size_t left_out)
{
    paper.length = 0;
    for (size_t i = 0; i < own.count; i++)
        if (i != left_out) put(own.at[i]);
}

/* in an order by chance, each line where it stood or at another place of its repeat */
static void shuffled(int moving)
{
    static stretch lines[MOST];
    paper.length = 0;
    memcpy(lines, own.at, sizeof lines);
    for (size_t left = own.count; left > 0; left--) {
        size_t i = random_below((unsigned)left);
        stretch at = moving ? elsewhere(lines[i]) : lines[i];
        put(at);
        moved += at.start != lines[i].start;
        lines[i] = lines[left - 1];
    }
    is_full("the own list in another order", 1);
}

/* the list with this line left out, with it once more, there or elsewhere, and with its repeat under another identifier first */
static void one_line_of_it(size_t i)
{
    put_all_but(i);
    is_full("the own list without a line", 0);
    must("missing without a line", 1, counts.missing);
    put(own.at[i]);
    is_full("the own list with a line last", 1);
    put(elsewhere(own.at[i]));
    is_full("the own list with a line again", 0);
    must("repeated with a line again", 1, counts.repeated);
    again += elsewhere(own.at[i]).start != own.at[i].start;
    paper.length = 0;
    put_named("rec_2", 5, own.at[i]);
    put(own.at[i]);
    mark_paper();
    must("a wrong line before a right one", 1, counts.right == 1 && counts.wrong == 1 && counts.repeated == 0);
    ending[record.reading] += own.at[i].end == record.size;
    wide += own.at[i].start > 255;
}

/* one digit of the list is another */
static void a_digit_changed(void)
{
    list_own();
    size_t at = random_below((unsigned)paper.length);
    while (paper.bytes[at] != '\t') at = (at + 1) % paper.length; /* a number follows */
    do at++;
    while (paper.bytes[at + 1] >= '0' && random_below(2));
    paper.bytes[at] = (uint8_t)('0' + (paper.bytes[at] - '0' + 1 + (int)random_below(9)) % 10);
    is_full("the own list with a digit changed", 0);
}

/* the record as it is now */
static void own_list(void)
{
    written_keep();
    list_own();
    is_full("the own list", 1);
    must("as many right lines as repeats", own.count, counts.right);
    shuffled(0);
    shuffled(1);
    for (size_t i = 0; i < own.count; i += 1 + own.count / (FEW + 1)) one_line_of_it(i);
    if (own.count > 0) a_digit_changed();
    paper.length = 0;
    is_full("an empty sheet", own.count == 0);
    written_store_stays();
}

/* ---- lists with a byte changed, dropped or put in */

static void a_byte_changed(size_t at, uint8_t value)
{
    uint8_t was = paper.bytes[at];
    paper.bytes[at] = value;
    mark_paper();
    paper.bytes[at] = was;
}

static void a_byte_dropped(size_t at)
{
    static uint8_t less[MIRROR_LIST_SIZE(MOST)];
    memcpy(less, paper.bytes, at);
    memcpy(less + at, paper.bytes + at + 1, paper.length - at - 1);
    mark(less, paper.length - 1);
}

static void a_byte_put_in(size_t at, uint8_t value)
{
    static uint8_t more[MIRROR_LIST_SIZE(MOST) + 1];
    memcpy(more, paper.bytes, at);
    more[at] = value;
    memcpy(more + at + 1, paper.bytes + at, paper.length - at);
    mark(more, paper.length + 1);
}

static uint8_t some_byte(void)
{
    return (uint8_t)(random_below(3) ? (unsigned char)"0123456789\t\n\r+- ae_"[random_below(19)] : random_below(256));
}

/* some places of the list that stands: each changed, dropped and put in before once, with any byte */
static void some_bytes(unsigned times)
{
    list_own();
    for (unsigned i = 0; i < times && paper.length > 0; i++) {
        size_t at = random_below((unsigned)paper.length);
        a_byte_changed(at, some_byte());
        a_byte_dropped(at);
        a_byte_put_in(at + random_below(2), some_byte());
    }
}

/* every byte at every place of a short list */
static void every_byte(unsigned reading, const char *word)
{
    guard_in_turn();
    give_name("e", 1);
    make_record(reading, (const unsigned char *)word, strlen(word), AT_BOTH_ENDS);
    written_keep();
    list_own();
    must("a short list", 1, paper.length > 0 && paper.length <= SHORT_LIST);
    for (size_t at = 0; at < paper.length; at++) {
        for (unsigned value = 0; value < 256; value++) {
            a_byte_changed(at, (uint8_t)value);
            a_byte_put_in(at, (uint8_t)value);
        }
        a_byte_dropped(at);
    }
    for (unsigned value = 0; value < 256; value++) a_byte_put_in(paper.length, (uint8_t)value);
    written_store_stays();
}

/* ---- lines that are right, repeated and wrong */

/* every sheet of one line whose places are at most one more than the record has letters */
static void every_line(void)
{
    for (size_t start = 0; start <= record.size + 1; start++)
        for (size_t end = 0; end <= record.size + 1; end++) {
            int repeat = start < end && end <= record.size && brute_palindrome(record.rule, record.letters + start, end - start);
            paper.length = 0;
            put((stretch){start, end});
            mark_paper();
            must("a single line", (uint64_t)repeat, counts.right);
            ending[record.reading] += repeat && end == record.size;
        }
}

static void some_line(void)
{
    static const size_t far[] = {1023, 1024, 1025, 9999};
    unsigned kind = random_below(16);
    size_t n = record.size, a = random_below((unsigned)n + 2), b = random_below((unsigned)n + 2);
    stretch at = own.count > 0 ? own.at[random_below((unsigned)own.count)] : (stretch){0, 1};
    if (kind < 4) put(at);
    else if (kind < 7 && own.count > 0) put(elsewhere(at));
    else if (kind == 7) put((stretch){a, a});
    else if (kind == 8) put((stretch){at.end, at.start});
    else if (kind == 9) put((stretch){at.start, n});
    else if (kind == 10) put((stretch){at.start, n + 1});
    else if (kind == 11) put((stretch){a, far[random_below(4)]});
    else if (kind == 12) put_named("rec_2", random_below(6), at);
    else if (kind == 13) put((stretch){at.start + 1, at.end - 1}); /* what is within a repeat: its end may come first */
    else put((stretch){a < b ? a : b, a < b ? b : a});
}

static void some_lines(unsigned lines)
{
    list_own();
    paper.length = 0;
    for (unsigned i = 0; i < lines; i++) some_line();
    mark_paper();
}

/* ---- records */

/* every word of up to so many letters in every way; in one of these with every line */
static void short_words(unsigned reading)
{
    unsigned char word[LONGEST_TRIED];
    size_t words = 1;
    for (size_t n = 0; n <= LONGEST_TRIED; n++, words *= 4)
        for (size_t code = 0; code < words; code++)
            for (int way = 0; way < WAYS; way++) {
                for (size_t i = 0, rest = code; i < n; i++, rest /= 4) word[i] = (unsigned char)"ATCG"[rest % 4];
                guard_in_turn();
                give_name("rec_1", 5);
                make_record(reading, word, n, way);
                own_list();
                some_lines(8);
                if ((int)(code % WAYS) == way) every_line();
                if (code % 32 == 7) written_damage();
            }
}

/* rows that link to a higher one: only what was taken again does */
static void count_upward(void)
{
    for (size_t row = 2; row < record.capacity + 2; row++)
        upward[record.reading] += mirror_row_of(mirror_row(record.store, record.length, row)) > row;
}

/* letters join at one end and leave at the other, and which is which changes now and then; so does the reading */
static void moving_record(unsigned reading, unsigned alphabet)
{
    unsigned steps = 20 + random_below(80), left = random_below(2);
    guard_in_turn();
    give_name("rec_1", 5);
    followed_open(reading, 1 + random_below(random_below(3) ? 12 : 60));
    for (unsigned i = 0; i < steps; i++) {
        if (record.size == record.capacity || (record.size > 0 && random_below(3) == 0)) followed_leave(!left);
        else followed_join((int)left, (unsigned char)"ATCG"[random_below(alphabet)]);
        if (random_below(12) == 0) left = !left;
        if (random_below(24) == 0) followed_turn();
        count_upward();
        if (i % 4 == 0) own_list();
        else written_keep();
        some_lines(1 + random_below(20));
        if (i % 4 == 1) some_bytes(4);
        if (i % 32 == 0) written_damage();
        written_store_stays();
    }
}

static void long_word(unsigned reading, const unsigned char *word, size_t n, int way)
{
    guard_in_turn();
    give_name("abcdefghijklmnopqrstuvwxyz_01234", n == MOST ? 32 : 4);
    make_record(reading, word, n, way);
    own_list();
    some_lines(200);
    some_bytes(6);
    written_every_room(MIRROR_MARKS_SIZE);
    if (way == TURNED) written_damage();
}

/* more places than a byte can number, and full records */
static void long_words(unsigned reading)
{
    static unsigned char word[MOST];
    for (int kind = 0; kind < WORDS; kind++) {
        choose_word(kind, reading, word);
        for (int way = 0; way < WAYS; way++) long_word(reading, word, 257, way);
        for (int way = AT_BOTH_ENDS; way <= TURNED; way++) long_word(reading, word, MOST, way);
    }
}

/* ---- by hand: ACCA, whose repeats are A, C, CC and ACCA */

static void by_hand(void)
{
    guard_in_turn();
    give_name("rec_1", 5);
    make_record(PLAIN, (const unsigned char *)"ACCA", 4, AT_THE_RIGHT);
    written_keep();
}

static void counted(const char *what, uint64_t right, uint64_t repeated, uint64_t wrong, uint64_t missing)
{
    must(what, 0, mirror_refusal(asked.answer));
    must(what, right, mirror_right(asked.out));
    must(what, repeated, mirror_repeated(asked.out));
    must(what, wrong, mirror_wrong(asked.out));
    must(what, missing, mirror_missing(asked.out));
}

#define GOOD "rec_1\t0\t1\n"

/* what is a sheet and what is none, alone and behind a good line: then the counts of that line may not be written either */
static void shapes(void)
{
    static const struct { const char *text; int good; } key[] = {
        {"", 1}, {GOOD, 1}, {"rec_1\t0\t0\n", 1}, {"rec_1\t9999\t9999\n", 1}, {"rec_1\t1024\t1025\n", 1}, {"\t0\t1\n", 1},
        {"a b,>\"\t0\t1\n", 1}, {"\r\t0\t1\n", 1}, {"5\t10\t100\n", 1}, {"\n", 0}, {"\n\n", 0}, {"\r\n", 0}, {"\t\n", 0},
        {"\t\t\n", 0}, {"\t\t", 0}, {"\t", 0}, {"rec_1", 0}, {"rec_1\n", 0}, {"rec_1\t0\n", 0}, {"rec_1\t0\t\n", 0}, {"rec_1\t\t1\n", 0},
        {"rec_1\t0\t1", 0}, {"rec_1\t0\t1\r\n", 0}, {"rec_1\t0\r\t1\n", 0}, {"rec_1\t0\t1\t\n", 0}, {"rec_1\t0\t1\t2\n", 0},
        {"rec_1\t0\t1\t2\t3\n", 0}, {"rec_1\t\t0\t1\n", 0}, {"rec_1\t0\t\t1\n", 0}, {"rec_1 0 1\n", 0}, {"rec_1 0\t1\n", 0},
        {"rec_1\t00\t1\n", 0}, {"rec_1\t0\t00\n", 0}, {"rec_1\t01\t2\n", 0}, {"rec_1\t0\t01\n", 0}, {"rec_1\t0000\t1\n", 0},
        {"rec_1\t+0\t1\n", 0}, {"rec_1\t0\t+1\n", 0}, {"rec_1\t-0\t1\n", 0}, {"rec_1\t0\t-1\n", 0}, {"rec_1\t 0\t1\n", 0},
        {"rec_1\t0\t 1\n", 0}, {"rec_1\t0 \t1\n", 0}, {"rec_1\t0\t1 \n", 0}, {"rec_1\t10000\t1\n", 0}, {"rec_1\t0\t10000\n", 0},
        {"rec_1\t0\t00001\n", 0}, {"rec_1\t0\t1.0\n", 0}, {"rec_1\t0x0\t1\n", 0}, {"rec_1\t0\t1e0\n", 0}, {"rec_1\t0\tone\n", 0},
        {"\n" GOOD, 0}, {GOOD "\n", 0}, {GOOD "\n" GOOD, 0}, {GOOD "rec_1\t1\t3", 0}, {GOOD "\t", 0}, {GOOD "rec_1", 0},
    };
    by_hand();
    for (size_t i = 0; i < sizeof key / sizeof key[0]; i++)
        for (int behind = 0; behind < 2; behind++) {
            paper.length = (size_t)sprintf((char *)paper.bytes, "%s%s", behind ? GOOD : "", key[i].text);
            mark_paper();
            must("what is a sheet", key[i].good ? 0 : MIRROR_NO_SHEET, mirror_refusal(asked.answer));
            written_every_room(MIRROR_MARKS_SIZE);
        }
}

/* Every byte in place of each byte of a line and in front of it, and as a whole identifier. A byte of the identifier may be any but
 * tab and LF, and only its own makes a right line; in the numbers only a digit may stand. */
static void every_byte_of_a_line(void)
{
    static const char line[] = "rec_1\t1\t3\n";
    by_hand();
    for (unsigned value = 0; value < 256; value++)
        for (size_t at = 0; at < sizeof line - 1; at++) {
            int numbers = at > 4, ends = value == '\t' || value == '\n', digit = value >= '0' && value <= '9';
            int good = line[at] == (char)value || (!numbers && !ends) || (digit && (at == 6 || at == 8));
            paper.length = (size_t)sprintf((char *)paper.bytes, "%s", line);
            a_byte_changed(at, (uint8_t)value);
            must("a byte of a line", good ? 0 : MIRROR_NO_SHEET, mirror_refusal(asked.answer));
            if (at < 5 && good) must("a byte of the identifier", line[at] == (char)value, counts.right);
            a_byte_put_in(at, (uint8_t)value);
        }
    for (unsigned value = 0; value < 256; value++) {
        paper.length = (size_t)sprintf((char *)paper.bytes, "x\t1\t3\n");
        a_byte_changed(0, (uint8_t)value);
        must("an identifier of one byte", value == '\t' || value == '\n' ? MIRROR_NO_SHEET : 0, mirror_refusal(asked.answer));
    }
}

/* identifiers that are not the one given: their lines are wrong, and name nothing */
static void other_identifiers(void)
{
    static const char *const others[] = {"",       "r",      "rec_",  "rec_11", "rec_1_",     "rec_1 ",
                                         " rec_1", "rec_2", "Rec_1", "REC_1",  "rec_1rec_1", "ec_1"};
    const uint64_t n = sizeof others / sizeof others[0];
    by_hand();
    for (size_t i = 0; i < n; i++) {
        paper.length = 0;
        put_named(others[i], strlen(others[i]), (stretch){1, 3});
        mark_paper();
        counted("a line under another identifier", 0, 0, 1, 4);
        put((stretch){1, 3});
        put_named(others[i], strlen(others[i]), (stretch){1, 3});
        put((stretch){1, 3});
        mark_paper();
        counted("lines between those under another identifier", 1, 1, 2, 3);
    }
    paper.length = 0;
    for (size_t i = 0; i < n; i++) put_named(others[i], strlen(others[i]), (stretch){0, 4});
    mark_paper();
    counted("lines under other identifiers", 0, 0, n, 4);
    written_store_stays();
}

/* identifiers of 0 to 40 bytes; every byte alone, and at every place of an identifier */
static void given_identifiers(void)
{
    static const char long_name[] = "abcdefghijklmnopqrstuvwxyz_0123456789ABC";
    char other[] = "rec_1";
    by_hand();
    for (size_t n = 0; n < sizeof long_name; n++) {
        give_name(long_name, n);
        paper.length = 0;
        put((stretch){2, 3});
        mark_paper();
        must("how long an identifier may be", n >= 1 && n <= 32 ? 0 : MIRROR_IDENTIFIER, mirror_refusal(asked.answer));
        if (n >= 1 && n <= 32) counted("a line under a longer identifier", 1, 0, 0, 3);
        if (n >= 1 && n <= 32) own_list();
    }
    for (unsigned value = 0; value < 256; value++)
        for (size_t at = 0; at < 5; at++) {
            memcpy(other, "rec_1", 5);
            other[at] = (char)value;
            give_name(other, 5);
            mark((const uint8_t *)GOOD, sizeof GOOD - 1);
            give_name(other + at, 1);
            mark((const uint8_t *)GOOD, sizeof GOOD - 1);
        }
}

/* each of the sixteen ways to be wrong in store, identifier, sheet and mark sheet: the first in the order is told */
static void every_refusal(void)
{
    static const unsigned order[] = {MIRROR_DAMAGED, MIRROR_IDENTIFIER, MIRROR_NO_SHEET, MIRROR_NO_ROOM};
    by_hand();
    for (unsigned wrong = 0; wrong < 16; wrong++)
        for (size_t room = 0; room < MARKS; room++) {
            unsigned first = wrong ? order[__builtin_ctz(wrong)] : 0;
            const char *text = wrong & 4 ? GOOD "rec_1\t0\t01\n" : GOOD;
            record.length = MIRROR_STORE_SIZE(record.capacity) - (wrong & 1);
            give_name(wrong & 2 ? "rec-1" : "rec_1", 5);
            sheet.length = strlen(text);
            sheet.bytes = guarded(SHEET_SLOT, (const uint8_t *)text, sheet.length);
            want();
            asked.answer = first;
            asked.need = first == 0 ? MARKS : 0;
            written_ask(wrong & 8 ? room : MARKS + room);
            record.length = MIRROR_STORE_SIZE(record.capacity);
            written_store_stays();
        }
}

/* ---- many lines */

/* a line so many times */
static void put_many(const char *line, size_t times)
{
    for (size_t n = strlen(line); times > 0; times--, paper.length += n) memcpy(paper.bytes + paper.length, line, n);
}

/* sheets of that many lines: of one repeat, of none, of both, and the same with a line at the end that is none */
static void many_lines(size_t n)
{
    by_hand();
    give_name("r", 1);
    paper.length = 0;
    put_many("r\t0\t1\n", n);
    mark_paper();
    counted("many lines of one repeat", 1, n - 1, 0, 3);
    put_many("r\t0\t1", 1);
    mark_paper();
    must("many lines and one without its end", MIRROR_NO_SHEET, asked.answer);
    paper.length = 0;
    put_many("\t0\t1\n", n);
    mark_paper();
    counted("many wrong lines", 0, 0, n, 4);
    paper.length = 0;
    put_many("r\t0\t4\n", n / 2);
    put_many("r\t4\t4\n", n / 4);
    put_many("r\t1\t2\n", n - n / 2 - n / 4);
    mark_paper();
    counted("many lines of all kinds", 2, n - n / 4 - 2, n / 4, 2);
    written_store_stays();
}

/* lines as long as sheets of many: an identifier, a number, tabs and LFs alone */
static void long_lines(void)
{
    by_hand();
    memset(paper.bytes, 'r', MANY);
    memcpy(paper.bytes + MANY, "\t0\t1\n", 5);
    mark(paper.bytes, MANY + 5);
    counted("a long identifier", 0, 0, 1, 4);
    memset(paper.bytes, '1', MANY);
    memcpy(paper.bytes, "rec_1\t0\t", 8);
    mark(paper.bytes, MANY);
    must("a long number", MIRROR_NO_SHEET, asked.answer);
    for (const char *byte = "\t\n01r"; *byte; byte++) {
        memset(paper.bytes, *byte, MANY);
        mark(paper.bytes, MANY);
        must("one byte again and again", MIRROR_NO_SHEET, asked.answer);
    }
}

static void everything_met(void)
{
    for (unsigned reading = PLAIN; reading < READINGS; reading++) {
        must("a full sheet in each reading", 1, full_ones[reading] > 0);
        must("a right line that ends the record in each reading", 1, ending[reading] > 0);
        must("rows that link to a higher one in each reading", 1, upward[reading] > 0);
    }
    must("a right line that starts above 255", 1, wide > 0);
    must("a line of the own list at another place", 1, moved > 0);
    must("a line that is repeated at another place", 1, again > 0);
    must("repeated lines that take three bytes", 1, most_repeated > 65536);
    must("wrong lines that take three bytes", 1, most_wrong > 65536);
}

int main(int argc, char **argv)
{
    static const size_t many[] = {65535, 65536, 65537, 70000, MANY};
    random_seed(argc > 1 ? argv[1] : NULL, 20261124);
    asked.call = mark_now;
    shapes();
    every_byte_of_a_line();
    other_identifiers();
    given_identifiers();
    every_refusal();
    for (size_t i = 0; i < sizeof many / sizeof many[0]; i++) many_lines(many[i]);
    long_lines();
    for (unsigned reading = PLAIN; reading < READINGS; reading++) {
        every_byte(reading, reading == PLAIN ? "ACCA" : "GAATTC");
        short_words(reading);
        for (unsigned i = 0; i < 120; i++) moving_record(reading, 1 + i % 4);
        long_words(reading);
    }
    everything_met();
    printf("%lu sheets with %llu lines, %lu of them none, %lu of plain and %lu of inverted records with full marks; ", sheets,
           (unsigned long long)all_lines, no_sheets, full_ones[PLAIN], full_ones[INVERTED]);
    printf("%lu mark sheets, %lu more too short and %lu stores that are not good refused\n", asked.lent, asked.refused, asked.damaged);
    return 0;
}

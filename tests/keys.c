/* The sittings with known keys of the scope, as its table has them, through the C boundary. Those without a star are
 * here only; the starred ones are proved (crates/known_answers) and run here too, at several capacities and built from either end.
 * A key is compared as it stands in the table, and no other program is asked. Beside the table: small letters are refused,
 * the keys of inverted records that 02 (vi) and source 004 have, records that are turned, 02 (vii), how many repeats of each
 * length a store carries, 02 (ii), what additions report of their search, 02 (xiii), where a piece breaks, 02 (x), how much
 * scratch the list takes, 02 (ix), how often repeats stand, 02 (iii), the minimal unique repeats, 02 (viii), the fewest pieces,
 * 02 (xiv), the two lengths of texts of uncertain bases, 02 (xii), which uncertain_keys.c has, what candidates' sheets are worth, 02 (xi),
 * and the record printed as in GenBank, 02 (iv), each page written out here byte by byte. Keys that ask for no repeat are run with either
 * opening. */
#include "mirror.h"
#include "uncertain_keys.h"
#include <ctype.h>
#include <stdio.h>
#include <stdlib.h>
#include <string.h>

static uint8_t store[MIRROR_STORE_SIZE(1024)], before[sizeof store];
static size_t length;
static unsigned long compared;
static const char *sitting;

/* either opening of include/mirror.h */
typedef uint64_t opening(uint8_t *, size_t, uint64_t);
static opening *const openings[] = {mirror_open, mirror_open_inverted};
/* the turn to each reading, in the order of the openings */
typedef uint64_t turning(uint8_t *, size_t);
static turning *const turns[] = {mirror_turn_plain, mirror_turn_inverted};

static void key(const char *what, uint64_t wanted, uint64_t got)
{
    compared++;
    if (wanted == got) return;
    printf("%s: %s: the key is %llu, got %llu\n", sitting, what, (unsigned long long)wanted, (unsigned long long)got);
    exit(1);
}

/* opens a record and adds the letters at the right, or from the last to the first at the left */
static void record(opening *open, const char *letters, uint64_t capacity, int from_left)
{
    size_t n = strlen(letters);
    sitting = n ? letters : "empty";
    length = MIRROR_STORE_SIZE(capacity);
    memset(store, 0xee, sizeof store);
    key("open", 0, open(store, length, capacity));
    for (size_t i = 0; i < n; i++) {
        uint64_t answer = from_left ? mirror_add_left(store, length, (unsigned char)letters[n - 1 - i])
                                    : mirror_add_right(store, length, (unsigned char)letters[i]);
        key("addition", 0, mirror_refusal(answer));
    }
}

static uint64_t found(const char *piece)
{
    return mirror_find(store, length, (const uint8_t *)piece, strlen(piece));
}

/* the piece is absent, and its first pair that breaks is this one, counted from the outside starting at 1; 0 for none */
static void breaks(const char *piece, uint64_t pair)
{
    key(piece, pair << 32, found(piece));
}

static uint64_t row_of(const char *piece)
{
    uint64_t answer = found(piece);
    key("found, and no pair breaks", 1ull << 8 | (uint64_t)mirror_row_of(answer) << 16, answer);
    return mirror_row_of(answer);
}

static uint64_t count(void)
{
    uint64_t answer = mirror_count(store, length);
    key("count is answered", 0, answer & 0xffff0000ffffffffull);
    return mirror_first(answer);
}

static void longest(uint64_t n, uint64_t place)
{
    key("longest", n << 32 | place << 48, mirror_longest(store, length));
    key("longest length", n << 32, mirror_longest_length(store, length));
}

/* a removal: its letter, and the repeat that goes, NULL for none */
static void goes(int left, char letter, const char *repeat)
{
    uint64_t row = repeat ? row_of(repeat) : 0, wanted = (uint64_t)(repeat != NULL) << 8 | row << 16 | (uint64_t)letter << 32;
    key("removal", wanted, left ? mirror_remove_left(store, length) : mirror_remove_right(store, length));
    if (repeat) breaks(repeat, 0);
}

/* a call that writes at the front of a lent buffer */
typedef uint64_t writing(const uint8_t *, size_t, uint8_t *, size_t);

/* what such a call answers and writes, as the key has it: into just these bytes and into more; a byte fewer, if there are any, is refused */
static void written(writing *call, uint64_t answer, const void *bytes, size_t n)
{
    uint8_t out[128];
    for (size_t room = n - (n > 0); room <= n + 8; room++) {
        memset(out, '?', sizeof out);
        key("the answer", room < n ? 9 : answer, call(store, length, out, room));
        key("the bytes", 0, room >= n && memcmp(out, bytes, n) != 0);
        for (size_t i = room < n ? 0 : n; i < n + 9; i++) key("a byte that is not of them", '?', out[i]);
    }
}

static void printed(const char *page)
{
    written(mirror_genbank, (uint64_t)strlen(page) << 32, page, strlen(page));
}

/* numbers as in the key, with one byte between two, each in two bytes, low byte first, and so many to each that is counted */
static void numbers(writing *call, const char *text, size_t each)
{
    uint8_t wanted[64];
    size_t n = 0;
    for (char *at = (char *)text; *at; at += *at != 0) {
        unsigned long number = strtoul(at, &at, 10);
        wanted[n++] = (uint8_t)(number % 256);
        wanted[n++] = (uint8_t)(number / 256);
    }
    written(call, (uint64_t)(n / 2 / each) << 32, wanted, n);
}

/* where the minimal unique repeats stand: start-end with a blank between two */
static void minimal(const char *stretches)
{
    numbers(mirror_minimal_unique, stretches, 2);
}

/* where the fewest pieces end, with a blank between two */
static void pieces(const char *ends)
{
    numbers(mirror_pieces, ends, 1);
}

/* an inverted record is not cut, with no byte lent and with as many as are always enough */
static void not_cut(void)
{
    uint8_t out[2048];
    written(mirror_pieces, 14, "", 0);
    memset(out, '?', sizeof out);
    key("pieces of an inverted record", 14, mirror_pieces(store, length, out, sizeof out));
    for (size_t i = 0; i < sizeof out; i++) key("a byte of an inverted record's", '?', out[i]);
}

/* ---- without a star */

static void empty_at_every_capacity(opening *open)
{
    for (uint64_t capacity = 1; capacity <= 1024; capacity++) {
        record(open, "", capacity, 0);
        key("remove left", 6, mirror_remove_left(store, length));
        key("letter at 0", 7, mirror_letter(store, length, 0));
        key("longest length", 0, mirror_longest_length(store, length));
        key("occurrences", 0, mirror_occurrences(store, length));
        key("frequency of row 2", 7, mirror_frequency(store, length, 2));
        printed("ORIGIN\n//\n");
        minimal("");
        if (open == mirror_open) pieces("");
        else key("pieces of nothing inverted", 14, mirror_pieces(store, length, NULL, 0));
    }
}

/* any record of 1,024 letters */
static void full(opening *open, const char *name, const char *period)
{
    char letters[1025];
    size_t n = strlen(period);
    for (size_t i = 0; i < 1024; i++) letters[i] = period[n ? i % n : 0];
    if (n == 0)
        for (size_t i = 0; i < 1024; i++) letters[i] = "ACGT"[(i * i / 3 + i * 7) % 4];
    letters[1024] = 0;
    for (int from_left = 0; from_left < 2; from_left++) {
        record(open, letters, 1024, from_left);
        sitting = name;
        key("add N left", 4, mirror_add_left(store, length, 'N'));
        key("add N right", 4, mirror_add_right(store, length, 'N'));
        key("add A left", 5, mirror_add_left(store, length, 'A'));
        key("add A right", 5, mirror_add_right(store, length, 'A'));
        for (int reading = 1; reading >= 0; reading--) {
            key("turn", 0, turns[reading](store, length));
            key("length", 1024ull << 32, mirror_length(store, length));
            key("add A left to the turned record", 5, mirror_add_left(store, length, 'A'));
        }
    }
}

/* 02 (i): a FASTA text may have small letters, the adding call and find take capitals only */
static void capitals_only(opening *open)
{
    static const char small[] = "acgt";
    record(open, "ACGT", 8, 0);
    sitting = "small letters";
    for (size_t i = 0; i < 4; i++) {
        const char piece[] = {small[i], 0};
        key("add a small letter left", 4, mirror_add_left(store, length, (uint64_t)small[i]));
        key("add a small letter right", 4, mirror_add_right(store, length, (uint64_t)small[i]));
        key("find a small letter", 4, found(piece));
    }
}

/* ---- with a star */

static void short_records(uint64_t capacity, int from_left)
{
    record(mirror_open, "", capacity, from_left);
    key("count", 0, count());
    record(mirror_open, "AAAA", capacity, from_left);
    key("count", 4, count());
    longest(4, 0);
    goes(0, 'A', "AAAA");
    record(mirror_open, "ACGA", capacity, from_left);
    key("count", 3, count());
    goes(1, 'A', NULL);
    record(mirror_open, "ACAC", capacity, from_left);
    goes(1, 'A', "ACA");
    key("count", 3, count());
}

static void longer_records(uint64_t capacity, int from_left)
{
    record(mirror_open, "ACA", capacity, from_left);
    uint64_t answer = mirror_add_right(store, length, 'C');
    key("CAC is new, past ACA", 1ull << 8 | row_of("CAC") << 16 | 1ull << 32, answer);
    key("count", 4, count());
    record(mirror_open, "ACGA", capacity, from_left);
    key("add G left: none new", 0, mirror_add_left(store, length, 'G'));
    key("count", 3, count());
    record(mirror_open, "ACCACG", capacity, from_left);
    key("count", 6, count());
    answer = mirror_row(store, length, row_of("ACCA"));
    key("link of ACCA", row_of("A"), mirror_row_of(answer));
    key("inner of ACCA", row_of("CC"), mirror_second(answer));
    breaks("GG", 0);
    record(mirror_open, "ACGAAG", capacity, from_left);
    key("count", 5, count());
    longest(4, 2);
}

/* ---- inverted records */

/* the list, its lines written as in the key */
static void listed(const char *lines)
{
    static uint8_t scratch[MIRROR_LIST_SCRATCH(1024)], out[MIRROR_LIST_SIZE(1024)], wanted[MIRROR_LIST_SIZE(1024)];
    uint64_t n = strlen(lines), used = MIRROR_LIST_SCRATCH((mirror_length(store, length) >> 32) & 0xffff), wrong = 0;
    memset(scratch, '?', sizeof scratch);
    memset(out, '?', sizeof out);
    memset(wanted, '?', sizeof wanted);
    memcpy(wanted, lines, n);
    uint64_t answer = mirror_list(store, length, (const uint8_t *)"e1", 2, scratch, sizeof scratch, out, sizeof out);
    for (size_t i = 0; i < sizeof scratch; i++)
        wrong += scratch[i] != (i < used ? 0 : '?');
    key("the list's length", n << 32, answer);
    key("the list, and no byte behind it", 0, memcmp(out, wanted, sizeof out) != 0);
    key("zeros in the scratch that it needs, and no byte behind them", 0, wrong);
}

/* 02 (vi): GAATTC has three repeats: AT, AATT and GAATTC */
static void three_repeats(void)
{
    key("count", 3, count());
    listed("e1\t2\t4\ne1\t1\t5\ne1\t0\t6\n");
    longest(6, 0);
    breaks("A", 1);
    breaks("TT", 1);
    key("row of AT", 1ull << 16 | 2ull << 32 | 1ull << 48, mirror_row(store, length, row_of("AT")));
    key("row of AATT", 1ull << 16 | 4ull << 32 | row_of("AT") << 48, mirror_row(store, length, row_of("AATT")));
    key("row of GAATTC", 1ull << 16 | 6ull << 32 | row_of("AATT") << 48, mirror_row(store, length, row_of("GAATTC")));
    goes(0, 'C', "GAATTC");
    key("AATT at the right, once only", 1ull << 8 | row_of("AATT") << 16, mirror_longest_right(store, length));
    key("nothing at the left: row 1", 1ull << 16, mirror_longest_left(store, length));
    goes(1, 'G', NULL);
    key("count", 2, count());
}

static void restriction_site(uint64_t capacity, int from_left)
{
    record(mirror_open_inverted, "GAATTC", capacity, from_left);
    three_repeats();
}

/* letters that stand without a repeat */
static void without_repeat(const char *letters, uint64_t capacity, int from_left)
{
    record(mirror_open_inverted, letters, capacity, from_left);
    key("count", 0, count());
    listed("");
    longest(0, 0);
    key("nothing at the left: row 1", 1ull << 16, mirror_longest_left(store, length));
    key("nothing at the right: row 1", 1ull << 16, mirror_longest_right(store, length));
    breaks(letters, strlen(letters) / 2 + 1); /* each pair agrees but for the middle letter, the last one */
}

/* 02 (vi): what a record answers that has no letter, or no repeat: 004's AGTCT, where T faces itself in the middle */
static void no_repeats(uint64_t capacity, int from_left)
{
    record(mirror_open_inverted, "", capacity, from_left);
    key("longest of nothing", 6, mirror_longest(store, length));
    key("longest left of nothing", 6, mirror_longest_left(store, length));
    key("longest right of nothing", 6, mirror_longest_right(store, length));
    listed("");
    without_repeat("A", capacity, from_left);
    without_repeat("AGTCT", capacity, from_left);
    key("add G left: none new", 0, mirror_add_left(store, length, 'G'));
    goes(1, 'G', NULL);
    key("count", 0, count());
}

/* 004: ACCTGCAGGT */
static void nested_repeats(uint64_t capacity, int from_left)
{
    record(mirror_open_inverted, "ACCTGCAGGT", capacity, from_left);
    key("count", 5, count());
    listed("e1\t4\t6\ne1\t3\t7\ne1\t2\t8\ne1\t1\t9\ne1\t0\t10\n");
    longest(10, 0);
}

/* ---- turns, 02 (vii) */

/* a turn that must leave every byte, with this answer */
static void stays(const char *what, turning *turn, uint64_t answer)
{
    memcpy(before, store, sizeof store);
    key(what, answer, turn(store, length));
    key("every byte stays", 0, memcmp(before, store, sizeof store) != 0);
}

/* the repeats have the rows from 2 on, in this order, and no other row is in use */
static void numbered(const char *const *repeats, uint64_t n)
{
    for (uint64_t i = 0; i < n; i++) key(repeats[i], i + 2, row_of(repeats[i]));
    key("count", n, count());
    key("the next row is free", 7, mirror_row(store, length, n + 2));
}

/* GAATTC opened plain, turned and turned back: the repeats of a reading are numbered by where they first end, from whichever
 * end the letters came; a turn to the reading in force moves nothing */
static void there_and_back(uint64_t capacity, int from_left)
{
    static const char *const plain[] = {"G", "A", "AA", "T", "TT", "C"}, *const from_the_left[] = {"C", "T", "TT", "A", "AA", "G"};
    static const char *const inverted[] = {"AT", "AATT", "GAATTC"};
    record(mirror_open, "GAATTC", capacity, from_left);
    stays("turn plain, in force", mirror_turn_plain, 0);
    numbered(from_left ? from_the_left : plain, 6);
    key("turn inverted", 0, mirror_turn_inverted(store, length));
    numbered(inverted, 3);
    stays("turn inverted, in force", mirror_turn_inverted, 0);
    key("turn plain", 0, mirror_turn_plain(store, length));
    numbered(plain, 6);
    listed("e1\t0\t1\ne1\t1\t2\ne1\t1\t3\ne1\t3\t4\ne1\t3\t5\ne1\t5\t6\n");
    breaks("AT", 1);
    key("turn inverted again", 0, mirror_turn_inverted(store, length));
    three_repeats();
}

/* a store that is not good stays as it is: the reading's cell alone changed, a letter that is none, a byte too few */
static void damaged(uint64_t capacity, int from_left)
{
    size_t reading = 22, last_letter = 24 * (capacity + 2) + 5; /* docs/LAYOUT.md */
    record(mirror_open, "GAATTC", capacity, from_left);
    for (size_t i = 0; i < sizeof turns / sizeof turns[0]; i++) {
        store[reading] = 1;
        stays("turn what was plain", turns[i], 3);
        store[reading] = 0;
        store[last_letter] = 'N';
        stays("turn with an N", turns[i], 3);
        store[last_letter] = 'C';
        length--;
        stays("turn what is too short", turns[i], 3);
        length++;
    }
    key("it is good again", 6, count());
}

/* an empty record that is turned has the bytes of one that was opened so */
static void empty_turned(size_t reading)
{
    for (uint64_t capacity = 1; capacity <= 1024; capacity++) {
        record(openings[reading], "", capacity, 0);
        memcpy(before, store, sizeof store);
        record(openings[1 - reading], "", capacity, 0);
        key("turn", 0, turns[reading](store, length));
        key("the bytes of an opening", 0, memcmp(before, store, sizeof store) != 0);
    }
}

/* ---- how many repeats of each length a store carries, 02 (ii) */

/* the two bytes at which docs/LAYOUT.md has how many repeats are of length k, and for k = 0 the largest length */
static uint8_t *carried_at(uint64_t k)
{
    return store + 24 * (k + 1) + 20;
}

static uint64_t carried(uint64_t k)
{
    return carried_at(k)[0] | (uint64_t)carried_at(k)[1] << 8;
}

/* a digit for each length from 1 to the largest, and no repeat is longer */
static void carries(uint64_t capacity, const char *digits)
{
    uint64_t largest = strlen(digits);
    for (uint64_t k = 1; k <= capacity; k++) key("how many of a length", k <= largest ? (uint64_t)(digits[k - 1] - '0') : 0, carried(k));
    key("the largest length", largest, carried(0));
    key("longest length", largest << 32, mirror_longest_length(store, length));
}

/* a removal lowers the largest length by two, by one, or not at all: another repeat has it, or none of it goes */
static void lengths(uint64_t capacity, int from_left)
{
    record(mirror_open, "AAAA", capacity, from_left);
    carries(capacity, "1111");
    goes(0, 'A', "AAAA");
    carries(capacity, "111");
    record(mirror_open, "ACGA", capacity, from_left);
    carries(capacity, "3");
    goes(1, 'A', NULL);
    carries(capacity, "3");
    record(mirror_open, "ACAC", capacity, from_left);
    carries(capacity, "202");
    goes(1, 'A', "ACA");
    carries(capacity, "201");
    goes(1, 'C', "CAC");
    carries(capacity, "2");
    goes(1, 'A', "A");
    carries(capacity, "1");
    goes(1, 'C', "C");
    carries(capacity, "");
    record(mirror_open, "ACCACG", capacity, from_left);
    carries(capacity, "3111");
    goes(1, 'A', "ACCA");
    carries(capacity, "311");
    record(mirror_open, "ACGAAG", capacity, from_left);
    carries(capacity, "3101");
    goes(0, 'G', "GAAG");
    carries(capacity, "31");
}

static void inverted_lengths(uint64_t capacity, int from_left)
{
    record(mirror_open_inverted, "AGTCT", capacity, from_left);
    carries(capacity, "");
    record(mirror_open, "GAATTC", capacity, from_left);
    carries(capacity, "42");
    key("turn inverted", 0, mirror_turn_inverted(store, length));
    carries(capacity, "010101");
    goes(0, 'C', "GAATTC");
    carries(capacity, "0101");
    goes(1, 'G', NULL);
    carries(capacity, "0101");
    goes(1, 'A', "AATT");
    carries(capacity, "01");
    goes(0, 'T', NULL);
    carries(capacity, "01");
    key("turn plain", 0, mirror_turn_plain(store, length));
    carries(capacity, "2");
    key("turn inverted again", 0, mirror_turn_inverted(store, length));
    goes(0, 'T', "AT");
    carries(capacity, "");
}

/* each byte of the carried numbers in turn is one more: it is refused, every byte stays, and put back it is good again */
static void untrue(uint64_t capacity)
{
    for (uint64_t k = 0; k <= capacity; k++)
        for (int i = 0; i < 2; i++) {
            carried_at(k)[i]++;
            memcpy(before, store, sizeof store);
            key("longest length of what is not good", 3, mirror_longest_length(store, length));
            key("a removal from it", 3, mirror_remove_left(store, length));
            key("every byte stays", 0, memcmp(before, store, sizeof store) != 0);
            carried_at(k)[i]--;
        }
    key("it is good again", 0, mirror_refusal(mirror_longest_length(store, length)));
}

/* the longest repeat that there can be: 1,024 letters, and one repeat of each length */
static void longest_of_all(void)
{
    char letters[1025] = "";
    memset(letters, 'A', 1024);
    record(mirror_open, letters, 1024, 0);
    for (uint64_t n = 1024; n > 1021; n--) {
        for (uint64_t k = 1; k <= 1024; k++) key("how many of a length", k <= n, carried(k));
        longest(n, 0);
        untrue(1024);
        key("a removal", 1ull << 8 | (n + 1) << 16 | (uint64_t)'A' << 32, mirror_remove_left(store, length));
    }
}

/* ---- what additions report of their search, 02 (xiii) */

/* the letters added one by one at an end of an empty record, with a digit for what each reports; the sum of the digits */
static void reports(opening *open, uint64_t capacity, int left, const char *letters, const char *digits, uint64_t sum)
{
    record(open, "", capacity, 0);
    sitting = letters;
    for (size_t i = 0; letters[i]; i++) {
        uint64_t answer = (left ? mirror_add_left : mirror_add_right)(store, length, (unsigned char)letters[i]);
        key("what is reported", (uint64_t)(digits[i] - '0'), mirror_first(answer));
        sum -= mirror_first(answer);
    }
    key("the sum", 0, sum);
}

/* AC reaches 2n - 1 with 3; in ACAC the repeat at the end has the letter before it, and is not passed */
static void searches(uint64_t capacity)
{
    reports(mirror_open, capacity, 0, "A", "1", 1);
    reports(mirror_open, capacity, 0, "AC", "12", 3);
    reports(mirror_open, capacity, 0, "AAAA", "1111", 4);
    reports(mirror_open, capacity, 0, "ACAC", "1201", 4);
    reports(mirror_open, capacity, 0, "AAAAAC", "111116", 11);
    reports(mirror_open, capacity, 0, "ACGAAG", "122210", 8);
    reports(mirror_open, capacity, 1, "AAAAAC", "000000", 0);
    reports(mirror_open_inverted, capacity, 0, "GAATTC", "000000", 0);
    reports(mirror_open_inverted, capacity, 1, "GAATTC", "000000", 0);
}

/* a turned record reports as one that was opened so */
static void searches_after_turns(uint64_t capacity)
{
    record(mirror_open_inverted, "AAAA", capacity, 0);
    key("inverted", 0, mirror_first(mirror_add_right(store, length, 'C')));
    goes(0, 'C', NULL);
    key("turn plain", 0, mirror_turn_plain(store, length));
    key("plain: AAAA, AAA, AA, A and the empty string are passed", 5, mirror_first(mirror_add_right(store, length, 'C')));
}

/* the longest search that there can be: 1,023 A and the empty string are passed for the last letter */
static void longest_search(void)
{
    char letters[1024] = "";
    memset(letters, 'A', 1023);
    record(mirror_open, letters, 1024, 0);
    key("C after 1,023 A", 1ull << 8 | 1025ull << 16 | 1024ull << 32, mirror_add_right(store, length, 'C'));
}

/* ---- where the mirror breaks, 02 (x) */

/* CCAC breaks at 2 in every plain record: not there, there, and longer than the record; odd pieces never in the middle */
static void breaks_plain(uint64_t capacity, int from_left)
{
    static const char *const records[] = {"", "A", "CC", "CCA", "CCAC", "CACCAC", "GGTGGT"};
    for (size_t i = 0; i < sizeof records / sizeof records[0]; i++) {
        record(mirror_open, records[i], capacity, from_left);
        breaks("CCAC", 2);
        breaks("CCAT", 1);
        breaks("CCACC", 0);
        breaks("ACAGACA", 0);
        breaks("ACAGATA", 2);
        breaks("ACTGACA", 3);
        breaks("ACGTACGTTGCATGCA", 0);
        breaks("ACGTACGATGCATGCA", 8);
    }
    record(mirror_open, "ACCACG", capacity, from_left);
    row_of("ACCA");
    breaks("CCAC", 2);
    breaks("CCACG", 1);
    breaks("GG", 0);
    breaks("ACCACG", 1);
    breaks("ACCACGT", 1);
    breaks("ACCACCA", 0);
}

/* the middle letter of an odd piece faces itself and is the last pair: no letter is its own partner */
static void breaks_inverted(uint64_t capacity, int from_left)
{
    static const char *const records[] = {"", "A", "GAATTC", "AGTCT", "TTTTTT"};
    for (size_t i = 0; i < sizeof records / sizeof records[0]; i++) {
        record(mirror_open_inverted, records[i], capacity, from_left);
        breaks("AGTCT", 3);
        breaks("AGACT", 3);
        breaks("AGTCC", 1);
        breaks("AGTGT", 2);
        breaks("A", 1), breaks("C", 1), breaks("G", 1), breaks("T", 1);
        breaks("CCAC", 1);
        breaks("GCAC", 2);
        breaks("CAATTC", 1);
        breaks("GTATTC", 2);
        breaks("GAATGC", 2);
        breaks("GAAATC", 3);
        breaks("GACTTC", 3);
        breaks("ACGTACGTACGT", 0);
    }
    record(mirror_open_inverted, "GAATTC", capacity, from_left);
    row_of("GAATTC");
    breaks("TTAA", 0);
    breaks("GAATTCG", 1);
    breaks("CGAATTCG", 0);
}

/* one record in both readings: a repeat of one breaks at its first pair in the other */
static void breaks_turned(uint64_t capacity)
{
    record(mirror_open, "GAATTC", capacity, 0);
    breaks("GAATTC", 1);
    breaks("GAAGAG", 3);
    key("turn inverted", 0, mirror_turn_inverted(store, length));
    row_of("GAATTC");
    breaks("AA", 1);
    breaks("GAAGAG", 1);
    breaks("GAAATC", 3);
    key("turn plain", 0, mirror_turn_plain(store, length));
    row_of("AA");
    breaks("GAATTC", 1);
}

/* 1,024 letters in a piece and in the record, with one letter in the middle changed, and one letter more */
static void breaks_in_the_middle(void)
{
    char letters[1027] = "";
    memset(letters, 'A', 1024);
    record(mirror_open, letters, 1024, 0);
    sitting = "1,024 A";
    row_of(letters);
    letters[512] = 'C';
    breaks(letters, 512);
    letters[511] = 'C';
    breaks(letters, 0);
    letters[1024] = 'A';
    breaks(letters, 512);
    letters[1025] = 'A';
    breaks(letters, 512);
}

/* ---- the list's scratch, 02 (ix) */

/* a record of n times A, which has n repeats or, if it is inverted, none: a byte too few, and just enough */
static void scratch_of(opening *open, size_t n, size_t bytes)
{
    static uint8_t scratch[128], out[MIRROR_LIST_SIZE(1024)];
    char letters[1025];
    memset(letters, 'A', n);
    letters[n] = 0;
    record(open, letters, n ? n : 1, 0);
    memset(scratch, '?', sizeof scratch);
    if (bytes > 0) key("a byte too few", 9, mirror_list(store, length, (const uint8_t *)"e1", 2, scratch, bytes - 1, out, sizeof out));
    for (size_t i = 0; i < sizeof scratch; i++) key("a scratch byte after a refusal", '?', scratch[i]);
    key("just enough", 0, mirror_refusal(mirror_list(store, length, (const uint8_t *)"e1", 2, scratch, bytes, out, sizeof out)));
    for (size_t i = 0; i < sizeof scratch; i++) key("a scratch byte", i < bytes ? 0 : '?', scratch[i]);
    key("the header says as much", bytes, MIRROR_LIST_SCRATCH(n));
}

/* one bit for each letter, rounded up to whole bytes: nine letters take two */
static void scratch_of_lists(opening *open)
{
    static const struct { size_t letters, bytes; } needs[] = {{0, 0}, {1, 1}, {7, 1}, {8, 1}, {9, 2}, {16, 2}, {17, 3}, {1015, 127}, {1016, 127}, {1017, 128}, {1024, 128}};
    for (size_t i = 0; i < sizeof needs / sizeof needs[0]; i++) scratch_of(open, needs[i].letters, needs[i].bytes);
}

/* ---- how often repeats stand, 02 (iii) */

static void stands(const char *repeat, uint64_t times)
{
    key(repeat, times << 32, mirror_frequency(store, length, row_of(repeat)));
}

/* all repeats counted by place: over the rows, over the right ends, and nothing below the two sums */
static void places(uint64_t sum)
{
    uint64_t answer = mirror_occurrences(store, length);
    key("places, over the rows", sum, mirror_by_rows(answer));
    key("places, over the right ends", sum, mirror_by_ends(answer));
    key("the bytes below the sums", 0, answer & 0xffff);
}

/* 001, example 3.2: AACAACAACA; then letters go at either end, and one comes */
static void places_of_a_figure(uint64_t capacity, int from_left)
{
    record(mirror_open, "AACAACAACA", capacity, from_left);
    stands("A", 7), stands("C", 3), stands("AA", 3), stands("ACA", 3);
    stands("AACAA", 2), stands("CAAC", 2), stands("ACAACA", 2);
    stands("AACAACAA", 1), stands("CAACAAC", 1), stands("ACAACAACA", 1);
    places(25);
    goes(1, 'A', "AACAACAA");
    stands("A", 6), stands("C", 3), stands("AA", 2), stands("ACA", 3), stands("AACAA", 1), stands("CAAC", 2);
    places(21);
    goes(0, 'A', "ACAACAACA");
    stands("A", 5), stands("C", 3), stands("AA", 2), stands("ACA", 2), stands("AACAA", 1), stands("ACAACA", 1);
    places(17);
    key("C at the left brings in CAC", 1, mirror_flag(mirror_add_left(store, length, 'C')));
    stands("C", 4), stands("CAC", 1), stands("A", 5);
    places(19);
}

static void places_of_short_records(uint64_t capacity, int from_left)
{
    record(mirror_open, "", capacity, from_left);
    places(0);
    record(mirror_open, "A", capacity, from_left);
    stands("A", 1);
    places(1);
    record(mirror_open, "AAAA", capacity, from_left);
    stands("A", 4), stands("AA", 3), stands("AAA", 2), stands("AAAA", 1);
    places(10);
    record(mirror_open, "ACCACG", capacity, from_left);
    stands("A", 2), stands("C", 3), stands("CC", 1), stands("ACCA", 1), stands("CAC", 1), stands("G", 1);
    places(9);
    record(mirror_open, "AACGAA", capacity, from_left); /* AA is the longest at two right ends */
    stands("A", 4), stands("AA", 2), stands("C", 1), stands("G", 1);
    places(8);
}

/* inverted records: an end may have no repeat, and letters may stand without any */
static void inverted_places(uint64_t capacity, int from_left)
{
    record(mirror_open_inverted, "AAAA", capacity, from_left);
    places(0);
    record(mirror_open_inverted, "GAATTC", capacity, from_left);
    stands("AT", 1), stands("AATT", 1), stands("GAATTC", 1);
    places(3);
    key("turn plain", 0, mirror_turn_plain(store, length));
    stands("G", 1), stands("A", 2), stands("AA", 1), stands("T", 2), stands("TT", 1), stands("C", 1);
    places(8);
    record(mirror_open_inverted, "ATATAT", capacity, from_left);
    stands("AT", 3), stands("TA", 2), stands("ATAT", 2), stands("TATA", 1), stands("ATATAT", 1);
    places(9);
}

/* A goes and CC takes its row, 2, with the higher row of C as its link: by falling row numbers C would be read before CC had
 * come to it */
static void places_of_rows_taken_again(uint64_t capacity)
{
    record(mirror_open, "AC", capacity, 0);
    goes(1, 'A', "A");
    key("CC is new", 1ull << 8 | 2ull << 16 | 1ull << 32, mirror_add_right(store, length, 'C'));
    key("CC links to row 3", 3ull << 16 | 2ull << 32 | 1ull << 48, mirror_row(store, length, 2));
    key("frequency of CC", 1ull << 32, mirror_frequency(store, length, 2));
    key("frequency of C", 2ull << 32, mirror_frequency(store, length, 3));
    places(3);
}

/* rows without a repeat: the roots, free rows, and numbers over capacity + 1, which would be a row's if they were narrowed */
static void rows_without_places(uint64_t capacity)
{
    const uint64_t none[] = {0, 1, 5, capacity + 1, capacity + 2, (1ull << 16) + 2, (1ull << 32) + 2, (1ull << 63) + 2, UINT64_MAX};
    record(mirror_open, "ACA", capacity, 0);
    for (uint64_t row = 2; row <= 4; row++) key("a row's frequency", (row == 2 ? 2ull : 1ull) << 32, mirror_frequency(store, length, row));
    memcpy(before, store, sizeof store);
    for (size_t i = 0; i < sizeof none / sizeof none[0]; i++) key("no row's frequency", 7, mirror_frequency(store, length, none[i]));
    key("every byte stays", 0, memcmp(before, store, sizeof store) != 0);
    goes(0, 'A', "ACA");
    key("the row that went", 7, mirror_frequency(store, length, 4));
    store[24 * (capacity + 2)] = 'N'; /* the first letter, by docs/LAYOUT.md */
    memcpy(before, store, sizeof store);
    for (size_t i = 0; i < sizeof none / sizeof none[0]; i++) key("what is not good comes first", 3, mirror_frequency(store, length, none[i]));
    key("a row of what is not good", 3, mirror_frequency(store, length, 2));
    key("places of what is not good", 3, mirror_occurrences(store, length));
    key("every byte stays", 0, memcmp(before, store, sizeof store) != 0);
}

/* the most that there can be: 1,024 A, of which each stretch is a repeat */
static void most_places(int from_left)
{
    char letters[1025] = "";
    memset(letters, 'A', 1024);
    record(mirror_open, letters, 1024, from_left);
    sitting = "1,024 A";
    for (uint64_t n = 1; n <= 1024; n++) key("frequency of n A", (1025 - n) << 32, mirror_frequency(store, length, n + 1));
    key("frequency of row capacity + 2", 7, mirror_frequency(store, length, 1026));
    places(524800);
    key("turn inverted", 0, mirror_turn_inverted(store, length));
    places(0);
}

/* AT 512 times: in the inverted reading each even stretch is a repeat, in the plain one each odd one */
static void places_of_pairs(void)
{
    char letters[1025] = "", piece[1024] = "";
    for (size_t i = 0; i < 1024; i++) letters[i] = "AT"[i % 2];
    record(mirror_open_inverted, letters, 1024, 0);
    sitting = "512 AT";
    for (size_t n = 2; n < 1024; n += 2) {
        memcpy(piece, letters, n);
        key("frequency from A on", (513 - n / 2) << 32, mirror_frequency(store, length, row_of(piece)));
        memcpy(piece, letters + 1, n);
        key("frequency from T on", (512 - n / 2) << 32, mirror_frequency(store, length, row_of(piece)));
    }
    stands(letters, 1);
    places(262144);
    key("turn plain", 0, mirror_turn_plain(store, length));
    stands("A", 512), stands("TAT", 511);
    places(262656);
}

/* ---- minimal unique repeats, 02 (viii) */

/* a letter that stands once, a double that does; AAA, within which A stands three times; not ACCA, within which CC stands once */
static void minimal_of_short_records(uint64_t capacity, int from_left)
{
    static const struct { const char *letters, *stretches; } keys[] = {
        {"", ""}, {"A", "0-1"}, {"AA", "0-2"}, {"AAA", "0-3"}, {"AAAA", "0-4"}, {"AC", "0-1 1-2"}, {"CAC", "1-2"}, {"ACAC", "0-3 1-4"},
        {"ACGA", "1-2 2-3"}, {"ACGT", "0-1 1-2 2-3 3-4"}, {"ACCA", "1-3"}, {"ACCACG", "1-3 2-5 5-6"}, {"ACGAAG", "1-2 3-5"}};
    for (size_t i = 0; i < sizeof keys / sizeof keys[0]; i++) {
        record(mirror_open, keys[i].letters, capacity, from_left);
        minimal(keys[i].stretches);
    }
}

/* the words of 001's figure 1 and example 3.2, of sitting 14 and, at last, of 003's figure 1, of which letters go at either end */
static void minimal_of_longer_records(uint64_t capacity, int from_left)
{
    record(mirror_open, "AACGCAA", capacity, from_left);
    minimal("3-4");
    record(mirror_open, "AACAACAACA", capacity, from_left);
    minimal("0-8 2-9");
    record(mirror_open, "AACACCAACACAC", capacity, from_left);
    minimal("4-6 5-9 7-12 8-13");
    record(mirror_open, "AAACACACACCACC", capacity, from_left);
    minimal("0-3 2-9 3-10 8-12 9-14");
    goes(1, 'A', "AAA");
    minimal("0-2 1-8 2-9 7-11 8-13"); /* now AA stands once */
    goes(1, 'A', "AA");
    minimal("0-7 1-8 6-10 7-12");
    key("ACCACCA is new", 1, mirror_flag(mirror_add_right(store, length, 'A')));
    minimal("0-7 1-8 5-11 7-12"); /* ACCA stands twice, so CACCAC is one */
    goes(0, 'A', "ACCACCA");
    goes(0, 'C', "CCACC");
    minimal("0-7 1-8 7-9"); /* CC stands once again */
}

/* an inverted record, in which only stretches of even length are repeats; then the same letters turned, and turned back */
static void minimal_of_inverted_records(uint64_t capacity, int from_left)
{
    static const struct { const char *letters, *stretches; } keys[] = {
        {"", ""}, {"A", ""}, {"AAAA", ""}, {"AT", "0-2"}, {"ATAT", "1-3"}, {"ATATAT", "1-5"}, {"AGTCT", ""}, {"GAATTC", "2-4"}};
    for (size_t i = 0; i < sizeof keys / sizeof keys[0]; i++) {
        record(mirror_open_inverted, keys[i].letters, capacity, from_left);
        minimal(keys[i].stretches);
    }
    key("turn plain", 0, mirror_turn_plain(store, length));
    minimal("0-1 1-3 3-5 5-6");
    key("turn inverted", 0, mirror_turn_inverted(store, length));
    minimal("2-4");
    if (capacity < 12) return;
    record(mirror_open_inverted, "ACCTGCAGGT", capacity, from_left);
    minimal("4-6");
    record(mirror_open_inverted, "GAATTCGAATTC", capacity, from_left);
    minimal("5-7"); /* AT, AATT and GAATTC stand twice */
}

/* letters that come and go at either end, so that every place moves, rows are taken again, and what stood once stands twice */
static void minimal_of_changes(uint64_t capacity)
{
    record(mirror_open, "ACGA", capacity, 0);
    goes(1, 'A', NULL);
    minimal("0-1 1-2 2-3");
    goes(1, 'C', "C");
    minimal("0-1 1-2");
    key("GAA: AA takes the row of C", 1ull << 8 | 3ull << 16, mirror_add_right(store, length, 'A') & 0xffffffff);
    minimal("0-1 1-3");
    key("AGAA", 1, mirror_flag(mirror_add_left(store, length, 'A')));
    minimal("1-2 2-4"); /* not AGA, for G stands once */
    key("GAGAA: G stands twice", 1, mirror_flag(mirror_add_left(store, length, 'G')));
    minimal("0-3 1-4 3-5");
    for (int i = 0; i < 5; i++) key("remove right", 0, mirror_refusal(mirror_remove_right(store, length)));
    minimal("");
}

/* full records: one that is a repeat as a whole, two that miss it by a letter, and starts and ends of which both bytes matter */
static void minimal_of_full_records(int from_left)
{
    static const uint8_t bytes[] = {0x2c, 0x01, 0x2d, 0x01, 0x2d, 0x01, 0x00, 0x04}; /* 300 to 301, 301 to 1024 */
    char letters[1025] = "";
    uint8_t out[4096];
    memset(letters, 'A', 1024);
    record(mirror_open, letters, 1024, from_left);
    minimal("0-1024");
    key("turn inverted", 0, mirror_turn_inverted(store, length));
    minimal("");
    letters[300] = 'C';
    record(mirror_open, letters, 1024, from_left);
    minimal("300-301 301-1024");
    memset(out, '?', sizeof out);
    key("into 4,096 bytes", 2ull << 32, mirror_minimal_unique(store, length, out, sizeof out));
    key("their bytes", 0, memcmp(out, bytes, sizeof bytes) != 0);
    key("the first start", 300, mirror_start(out, 0));
    key("the first end", 301, mirror_end(out, 0));
    key("the second start", 301, mirror_start(out, 1));
    key("the second end", 1024, mirror_end(out, 1));
    for (size_t i = sizeof bytes; i < sizeof out; i++) key("a byte behind them", '?', out[i]);
    for (size_t i = 0; i < 1024; i++) letters[i] = "AT"[i % 2];
    record(mirror_open, letters, 1024, from_left);
    minimal("0-1023 1-1024");
    key("turn inverted", 0, mirror_turn_inverted(store, length));
    minimal("1-1023");
}

/* what the header says is always enough: four bytes for each letter */
static void room_for_minimal(void)
{
    static const struct { size_t letters, bytes; } rooms[] = {{0, 0}, {1, 4}, {63, 252}, {64, 256}, {1024, 4096}};
    for (size_t i = 0; i < sizeof rooms / sizeof rooms[0]; i++) key("room enough", rooms[i].bytes, MIRROR_MINIMAL_UNIQUE_SIZE(rooms[i].letters));
}

/* ---- the fewest pieces, 02 (xiv) */

/* the word of 02; words that are one piece, and words of single letters; of two cuttings that with the longest piece last: A CACAC and not
 * ACACA C, A CAAC and not ACA A C, ACA CC and not A CAC C, which has three */
static void pieces_of_short_records(uint64_t capacity, int from_left)
{
    static const struct { const char *letters, *ends; } keys[] = {
        {"", ""}, {"A", "1"}, {"AA", "2"}, {"AAAAAA", "6"}, {"ACA", "3"}, {"ACCA", "4"}, {"AACGAA", "2 3 4 6"}, {"AC", "1 2"}, {"ACGT", "1 2 3 4"},
        {"ACGACG", "1 2 3 4 5 6"}, {"ACAC", "1 4"}, {"ACACAC", "1 6"}, {"AAAC", "3 4"}, {"CAAA", "1 4"}, {"ACAAC", "1 5"}, {"ACACC", "3 5"},
        {"ACGAAG", "1 2 6"}, {"ACCACG", "4 5 6"}, {"AACAAC", "2 6"}, {"CAACAA", "1 6"}, {"GAATTC", "1 3 5 6"}, {"GTAAAA", "1 2 6"}};
    for (size_t i = 0; i < sizeof keys / sizeof keys[0]; i++) {
        record(mirror_open, keys[i].letters, capacity, from_left);
        pieces(keys[i].ends);
    }
}

/* the words of 001's figure 1 and example 3.2, of sitting 14 and of 003's figure 1; before them two in which palindromes of one series
 * end at the same place: C ACAACA AA and not CAC AACAA A; ACAACA A, though AACAA ends there too */
static void pieces_of_longer_records(uint64_t capacity, int from_left)
{
    record(mirror_open, "CACAACAAA", capacity, from_left);
    pieces("1 7 9");
    record(mirror_open, "ACAACAA", capacity, from_left);
    pieces("6 7");
    record(mirror_open, "AACGCAA", capacity, from_left);
    pieces("7");
    record(mirror_open, "AACAACAACA", capacity, from_left);
    pieces("1 10");
    record(mirror_open, "AACACCAACACAC", capacity, from_left);
    pieces("1 4 6 8 13"); /* A ACA CC AA CACAC; AA C ACCA A CACAC has a shorter one before the last */
    record(mirror_open, "AAACACACACCACC", capacity, from_left);
    pieces("2 9 14");
}

/* letters come and go at either end, so that every end moves, and rows are taken again */
static void pieces_of_changes(uint64_t capacity)
{
    record(mirror_open, "ACGAAG", capacity, 0);
    goes(1, 'A', NULL);
    pieces("1 5"); /* C GAAG */
    goes(0, 'G', "GAAG");
    pieces("1 2 4"); /* C G AA */
    goes(1, 'C', "C");
    pieces("1 3");
    key("CGAA once more", 1, mirror_flag(mirror_add_left(store, length, 'C')));
    pieces("1 2 4");
    key("CGAAC", 0, mirror_flag(mirror_add_right(store, length, 'C')));
    pieces("1 2 4 5");
    key("CGAACG", 0, mirror_flag(mirror_add_right(store, length, 'G')));
    pieces("1 2 4 5 6");
    for (int i = 0; i < 6; i++) key("remove right", 0, mirror_refusal(mirror_remove_right(store, length)));
    pieces("");
}

/* an inverted record is refused, also where it could be cut; turned it is cut, and turned back refused again */
static void pieces_of_inverted_records(uint64_t capacity, int from_left)
{
    static const struct { const char *letters, *ends; } keys[] = {{"", ""}, {"A", "1"}, {"AT", "1 2"}, {"ATAT", "1 4"}, {"GAATTC", "1 3 5 6"}, {"ACGAAG", "1 2 6"}};
    for (size_t i = 0; i < sizeof keys / sizeof keys[0]; i++) {
        record(mirror_open_inverted, keys[i].letters, capacity, from_left);
        not_cut();
        key("turn plain", 0, mirror_turn_plain(store, length));
        pieces(keys[i].ends);
        key("turn inverted", 0, mirror_turn_inverted(store, length));
        not_cut();
    }
}

/* full records: one piece; two, whose ends take both bytes; the second of two as good left for the first; and as many as letters */
static void pieces_of_full_records(int from_left)
{
    char letters[1025] = "";
    uint8_t out[2049];
    memset(letters, 'A', 1024);
    record(mirror_open, letters, 1024, from_left);
    pieces("1024");
    letters[300] = 'C';
    record(mirror_open, letters, 1024, from_left);
    pieces("601 1024");
    letters[0] = 'G', letters[1] = 'T', letters[300] = 'A';
    record(mirror_open, letters, 1024, from_left);
    pieces("1 2 1024");
    for (size_t i = 0; i < 1024; i++) letters[i] = "AC"[i % 2];
    record(mirror_open, letters, 1024, from_left);
    pieces("1 1024");
    for (size_t i = 0; i < 1024; i++) letters[i] = "ACG"[i % 3];
    record(mirror_open, letters, 1024, from_left);
    memset(out, '?', sizeof out);
    key("a byte too few for 1,024 pieces", 9, mirror_pieces(store, length, out, 2047));
    key("no byte is written", '?', out[0]);
    key("1,024 pieces", 1024ull << 32, mirror_pieces(store, length, out, 2048));
    for (size_t i = 0; i < 1024; i++) key("an end", i + 1, mirror_piece_end(out, i));
    key("the byte behind them", '?', out[2048]);
}

/* what the header says is always enough: two bytes for each letter */
static void room_for_pieces(void)
{
    static const struct { size_t letters, bytes; } rooms[] = {{0, 0}, {1, 2}, {127, 254}, {128, 256}, {1024, 2048}};
    for (size_t i = 0; i < sizeof rooms / sizeof rooms[0]; i++) key("room enough", rooms[i].bytes, MIRROR_PIECES_SIZE(rooms[i].letters));
}

/* ---- calls that write, on stores that are not good */

/* such a store is refused before the reading and the room are looked at, and no byte is written */
static void refused_while_damaged(opening *open, writing *call)
{
    uint8_t out[64];
    record(open, "GAATTC", 8, 0);
    store[24 * 10 + 2] = 'a'; /* the third letter, by docs/LAYOUT.md */
    memset(out, '?', sizeof out);
    memcpy(before, store, sizeof store);
    for (size_t room = 0; room <= sizeof out; room++) key("written of what is not good", 3, call(store, length, out, room));
    key("the store stays", 0, memcmp(before, store, sizeof store) != 0);
    store[24 * 10 + 2] = 'A';
    key("written of a store too short", 3, call(store, length - 1, out, 0));
    for (size_t i = 0; i < sizeof out; i++) key("every byte stays", '?', out[i]);
}

/* each of them, and what it writes once the store is good again */
static void written_of_damaged_stores(opening *open)
{
    refused_while_damaged(open, mirror_genbank);
    printed("ORIGIN\n        1 gaattc\n//\n");
    refused_while_damaged(open, mirror_minimal_unique);
    minimal(open == mirror_open ? "0-1 1-3 3-5 5-6" : "2-4");
    refused_while_damaged(open, mirror_pieces);
    if (open == mirror_open) pieces("1 3 5 6");
    else not_cut();
}

/* ---- uncertain bases, 02 (xii) */

static void uncertain(const char *text, uint64_t answer)
{
    sitting = *text ? text : "no codes";
    key("its lengths, or its refusal", answer, mirror_uncertain((const uint8_t *)text, strlen(text)));
}

static void uncertain_by_hand(void)
{
    for (size_t i = 0; i < uncertain_keys_count; i++)
        uncertain(uncertain_keys[i].text, (uint64_t)uncertain_keys[i].some << 32 | (uint64_t)uncertain_keys[i].every << 48);
    for (size_t i = 0; i < uncertain_none_count; i++) uncertain(uncertain_none[i], 4);
    uncertain("acgtrymkswbdhvnACGTRYMKSWBDHVNx", 4);
}

/* every code alone, and every two of them, in both cases */
static void uncertain_of_two(void)
{
    for (const char *one = uncertain_codes; *one; one++) {
        uncertain((char[]){*one, 0}, 1ull << 32 | 1ull << 48);
        for (const char *other = uncertain_codes; *other; other++) {
            char a = (char)toupper(*one), b = (char)toupper(*other);
            uncertain((char[]){*one, *other, 0}, (uint64_t)uncertain_pair_some(a, b) << 32 | (uint64_t)uncertain_pair_every(a, b) << 48);
        }
    }
}

/* 1,023 to 1,025 codes: with an uncertain middle place, then with a pair of them; more than 1,024 are refused whatever they are */
static void uncertain_at_the_limit(void)
{
    char text[1026] = "";
    memset(text, 'a', 1023);
    uncertain(text, 1023ull << 32 | 1023ull << 48);
    text[511] = 'n'; /* the middle */
    uncertain(text, 1023ull << 32 | 1023ull << 48);
    text[1023] = 'A';
    uncertain(text, 1024ull << 32 | 1023ull << 48);
    text[512] = 'N';
    uncertain(text, 1024ull << 32 | 511ull << 48);
    text[1023] = 'u';
    uncertain(text, 4);
    text[1023] = text[1024] = 'A';
    uncertain(text, 5);
    text[0] = 'U';
    uncertain(text, 5);
    text[1024] = 0;
    uncertain(text, 4);
}

static void uncertain_texts(void)
{
    uncertain_by_hand();
    uncertain_of_two();
    uncertain_at_the_limit();
}

/* ---- candidates' sheets, 02 (xi) */

/* a sheet as a text that may hold zero bytes, and how many bytes it has */
#define SHEET(text) text, sizeof text - 1
#define NAME_OF_31 "abcdefghijklmnopqrstuvwxyz_0123"

/* the key of a sheet: its number and, where that is 0, how many are right, repeated, wrong and missing */
typedef struct { unsigned number; uint64_t counts[4]; } marks_key;

static uint64_t mark(const char *name, const char *sheet, size_t bytes, uint8_t *marks, size_t room)
{
    return mirror_mark(store, length, (const uint8_t *)name, strlen(name), (const uint8_t *)sheet, bytes, marks, room);
}

/* full marks: none repeated, wrong or missing */
static uint64_t full_marks(marks_key of)
{
    return (uint64_t)(of.counts[1] == 0 && of.counts[2] == 0 && of.counts[3] == 0) << 8;
}

/* what marking answers and leaves in each room, whatever the mark sheet held: eight bytes for each count, low byte first. A mark sheet that is
 * too small is told only where the sheet is one */
static void marked(const char *name, const char *sheet, size_t bytes, marks_key of)
{
    static const size_t rooms[] = {0, 1, 31, 32, 33, 40};
    for (size_t k = 0; k < sizeof rooms / sizeof rooms[0]; k++) {
        uint8_t marks[41], wanted[41];
        unsigned refusal = of.number ? of.number : rooms[k] < 32 ? 9 : 0;
        memset(marks, k % 2 ? '?' : 0xff, sizeof marks);
        memcpy(wanted, marks, sizeof marks);
        for (size_t i = 0; refusal == 0 && i < 32; i++) wanted[i] = (uint8_t)(of.counts[i / 8] >> 8 * (i % 8));
        key("whether it has full marks, or its refusal", refusal ? refusal : full_marks(of), mark(name, sheet, bytes, marks, rooms[k]));
        key("a byte of the mark sheet", 0, memcmp(wanted, marks, sizeof marks) != 0);
    }
}

/* the sheets of known_answers that are accepted: the record's own list and the same from the last line up; A at its second place, and again at
 * its third; stretches that are none; identifiers that do not agree, and then one that does; no line; inverted records. Behind them: the same
 * letters plain, a line too many, repeated or wrong, one too few, and records of few letters with many places */
static void marks_of_sheets(uint64_t capacity, int from_left)
{
    static const struct { opening *open; const char *letters, *sheet; size_t bytes; marks_key of; } keys[] = {
        {mirror_open, "ACGAAG", SHEET("e1\t0\t1\ne1\t1\t2\ne1\t2\t3\ne1\t3\t5\ne1\t2\t6\n"), {0, {5, 0, 0, 0}}},
        {mirror_open, "ACGAAG", SHEET("e1\t2\t6\ne1\t3\t5\ne1\t2\t3\ne1\t1\t2\ne1\t0\t1\n"), {0, {5, 0, 0, 0}}},
        {mirror_open, "ACGAAG", SHEET("e1\t3\t4\ne1\t4\t5\ne1\t0\t2\n"), {0, {1, 1, 1, 4}}},
        {mirror_open, "AA", SHEET("e1\t1\t1\ne1\t2\t1\ne1\t0\t3\ne1\t0\t9999\n"), {0, {0, 0, 4, 2}}},
        {mirror_open, "AA", SHEET("\t0\t1\n \r\0\xff\t0\t1\ne\t0\t1\ne1\t0\t1\ne1\t0\t2\n"), {0, {2, 0, 3, 0}}},
        {mirror_open, "", SHEET(""), {0, {0, 0, 0, 0}}},
        {mirror_open, "AA", SHEET(""), {0, {0, 0, 0, 2}}},
        {mirror_open_inverted, "AA", SHEET(""), {0, {0, 0, 0, 0}}},
        {mirror_open_inverted, "GAATTC", SHEET("e1\t0\t6\ne1\t1\t5\ne1\t2\t4\n"), {0, {3, 0, 0, 0}}},
        {mirror_open_inverted, "GAATTC", SHEET("e1\t0\t6\ne1\t0\t1\n"), {0, {1, 0, 1, 2}}},
        {mirror_open, "GAATTC", SHEET("e1\t0\t6\ne1\t1\t5\ne1\t2\t4\n"), {0, {0, 0, 3, 6}}},
        {mirror_open, "AA", SHEET("e1\t0\t1\ne1\t0\t2\ne1\t1\t2\n"), {0, {2, 1, 0, 0}}},
        {mirror_open, "AA", SHEET("e1\t0\t1\ne1\t0\t2\ne1\t0\t3\n"), {0, {2, 0, 1, 0}}},
        {mirror_open, "AA", SHEET("e1\t0\t2\n"), {0, {1, 0, 0, 1}}},
        {mirror_open, "AAAAAA", SHEET("e1\t4\t6\ne1\t0\t2\ne1\t5\t6\ne1\t1\t6\ne1\t0\t5\ne1\t0\t6\n"), {0, {4, 2, 0, 2}}},
        {mirror_open, "ACAACA", SHEET("e1\t3\t6\ne1\t0\t3\ne1\t2\t4\ne1\t1\t5\ne1\t0\t4\ne1\t5\t6\n"), {0, {4, 1, 1, 2}}}};
    for (size_t i = 0; i < sizeof keys / sizeof keys[0]; i++) {
        record(keys[i].open, keys[i].letters, capacity, from_left);
        marked("e1", keys[i].sheet, keys[i].bytes, keys[i].of);
    }
}

/* those that are refused: the last line without its LF, an empty line, CR LF, two fields, four, an empty number, a needless zero, five digits,
 * a sign, an LF alone; and more of each kind, before and behind a line that is right */
static void sheets_that_are_none(void)
{
    static const struct { const char *sheet; size_t bytes; } keys[] = {
        {SHEET("e1\t0\t1")}, {SHEET("e1\t0\t1\n\n")}, {SHEET("e1\t0\t1\r\n")}, {SHEET("e1\t0\n")}, {SHEET("e1\t0\t1\t1\n")},
        {SHEET("e1\t\t1\n")}, {SHEET("e1\t0\t01\n")}, {SHEET("e1\t0\t10000\n")}, {SHEET("e1\t+0\t1\n")}, {SHEET("\n")},
        {SHEET("\n\ne1\t0\t1\n")}, {SHEET("e1\t0\t1\n ")}, {SHEET("e1\t0\t1\ne1\t0\t2")}, {SHEET("e1\t0\t1\n\0")}, {SHEET("e1\n")},
        {SHEET("\t\n")}, {SHEET("\t\t\n")}, {SHEET("\t\t\t\n")}, {SHEET("e1\t0\t1\t\n")}, {SHEET("\te1\t0\t1\n")},
        {SHEET("e1\t\t0\t1\n")}, {SHEET("e1\t0\t\n")}, {SHEET("e1\t00\t1\n")}, {SHEET("e1\t0000\t1\n")}, {SHEET("e1\t10000\t1\n")},
        {SHEET("e1\t0\t0001\n")}, {SHEET("e1\t0\t-1\n")}, {SHEET("e1\t0\t1 \n")}, {SHEET("e1\t 0\t1\n")}, {SHEET("e1\t0\t1.\n")},
        {SHEET("e1\t0x0\t1\n")}, {SHEET("e1\t0\t1e0\n")}, {SHEET("e1 0 1\n")}, {SHEET("track\ne1\t0\t1\n")},
        {SHEET("e2\t0\t1\ne2\t0\t01\n")}, {SHEET("e1\t0\t1\0\n")}, {SHEET("e1\t0\t99999999999999999999\n")}};
    record(mirror_open, "AA", 8, 0);
    for (size_t i = 0; i < sizeof keys / sizeof keys[0]; i++) {
        sitting = keys[i].sheet;
        marked("e1", keys[i].sheet, keys[i].bytes, (marks_key){13, {0}});
    }
}

/* every byte as an identifier and as either number, on AAAA: tabs and LFs make other fields and lines, and of numbers there are ten */
static void marks_of_bytes(void)
{
    record(mirror_open, "AAAA", 4, 0);
    for (int b = 0; b < 256; b++) {
        int none = b < '0' || b > '9', right_start = b < '4', right_end = b > '0' && b < '5';
        char sheet[] = "e\t0\t1\n";
        sheet[0] = (char)b;
        marked("e", SHEET(sheet), (marks_key){b == '\t' || b == '\n' ? 13 : 0, {b == 'e', 0, b != 'e', 4 - (b == 'e')}});
        sheet[0] = 'e', sheet[2] = (char)b, sheet[4] = '4';
        marked("e", SHEET(sheet), (marks_key){none ? 13 : 0, {(uint64_t)right_start, 0, (uint64_t)!right_start, 4 - (uint64_t)right_start}});
        sheet[2] = '0', sheet[4] = (char)b;
        marked("e", SHEET(sheet), (marks_key){none ? 13 : 0, {(uint64_t)right_end, 0, (uint64_t)!right_end, 4 - (uint64_t)right_end}});
    }
}

/* identifiers of 1 and of 32 bytes agree with their lines and no others; 0 and 33 bytes, and what is no letter, digit or underscore, get 10,
 * and so does what would be one up to a zero byte */
static void marks_of_identifiers(void)
{
    static const char sheet[] = "e\t0\t1\n" "E\t0\t1\n" NAME_OF_31 "4\t0\t1\n" NAME_OF_31 "45\t0\t1\n" NAME_OF_31 "\t0\t1\n" NAME_OF_31 "5\t0\t1\n";
    static const char *const none[] = {"", NAME_OF_31 "45", "e-1", "e 1", "e.1", "e1\n", "\t", "\xe9", "e1/"};
    uint8_t marks[32];
    record(mirror_open, "A", 1, 0);
    marked("e", SHEET(sheet), (marks_key){0, {1, 0, 5, 0}});
    marked("E", SHEET(sheet), (marks_key){0, {1, 0, 5, 0}});
    marked(NAME_OF_31 "4", SHEET(sheet), (marks_key){0, {1, 0, 5, 0}});
    marked("ee", SHEET(sheet), (marks_key){0, {0, 0, 6, 1}});
    marked("_", SHEET("_\t0\t1\n"), (marks_key){0, {1, 0, 0, 0}});
    for (size_t i = 0; i < sizeof none / sizeof none[0]; i++) {
        marked(none[i], SHEET(sheet), (marks_key){10, {0}});
        marked(none[i], SHEET("no sheet"), (marks_key){10, {0}});
    }
    key("an identifier with a zero byte", 10, mirror_mark(store, length, (const uint8_t *)"e\0", 2, (const uint8_t *)sheet, 0, marks, 32));
}

/* 3, 10, 13, 9 in this order, each with all that come behind it; then the mark sheet's counts, which are kept until a sheet is accepted */
static void refusals_of_marking(opening *open)
{
    static const char one[] = "e1\t1\t2\ne1\t1\t2\ne1\t0\t1\n", none[] = "e1\t1\t2";
    uint8_t marks[32], kept[32];
    record(open, "ACGT", 8, 0);
    key("a first sheet", 0, mark("e1", SHEET(one), marks, 32));
    memcpy(kept, marks, 32);
    store[24 * 10 + 2] = 'g'; /* the third letter, by docs/LAYOUT.md */
    key("a store that is not good", 3, mark("", SHEET(none), marks, 31));
    store[24 * 10 + 2] = 'G';
    length--;
    key("a store too short", 3, mark("", SHEET(none), marks, 31));
    length++;
    memcpy(before, store, sizeof store);
    key("an identifier that is none", 10, mark("", SHEET(none), marks, 31));
    key("a sheet that is none", 13, mark("e1", SHEET(none), marks, 31));
    key("a mark sheet too small", 9, mark("e1", SHEET(one), marks, 31));
    key("the former counts", 0, memcmp(marks, kept, 32) != 0);
    key("the store stays", 0, memcmp(before, store, sizeof store) != 0);
    key("right", open == mirror_open ? 2 : 0, mirror_right(marks));
    key("repeated", open == mirror_open, mirror_repeated(marks));
    key("wrong", open == mirror_open ? 0 : 3, mirror_wrong(marks));
    key("missing", 2, mirror_missing(marks));
    key("another sheet", 0, mark("e1", SHEET("e1\t0\t9\n"), marks, 32));
    key("right, and not more than that", 0, mirror_right(marks) + mirror_repeated(marks));
    key("wrong, and not more than that", 1, mirror_wrong(marks));
    key("missing, and not more than that", open == mirror_open ? 4 : 2, mirror_missing(marks));
}

/* letters come and go at either end, and a turn changes what is right */
static void marks_of_changes(uint64_t capacity)
{
    record(mirror_open, "ACGAAG", capacity, 0);
    goes(0, 'G', "GAAG");
    marked("e1", SHEET("e1\t0\t1\ne1\t1\t2\ne1\t2\t3\ne1\t3\t5\ne1\t2\t6\n"), (marks_key){0, {4, 0, 1, 0}});
    goes(1, 'A', NULL);
    marked("e1", SHEET("e1\t0\t1\ne1\t1\t2\ne1\t2\t4\ne1\t2\t3\n"), (marks_key){0, {4, 0, 0, 0}});
    goes(1, 'C', "C");
    marked("e1", SHEET("e1\t0\t1\ne1\t1\t2\ne1\t2\t4\ne1\t2\t3\n"), (marks_key){0, {2, 1, 1, 1}});
    key("GAAT", 1, mirror_flag(mirror_add_right(store, length, 'T')));
    key("GAATT", 1, mirror_flag(mirror_add_right(store, length, 'T')));
    key("GAATTC", 1, mirror_flag(mirror_add_right(store, length, 'C')));
    for (int round = 0; round < 2; round++) {
        marked("e1", SHEET("e1\t0\t1\ne1\t2\t3\ne1\t1\t3\ne1\t4\t5\ne1\t3\t5\ne1\t5\t6\n"), (marks_key){0, {6, 0, 0, 0}});
        marked("e1", SHEET("e1\t2\t4\ne1\t1\t5\ne1\t0\t6\n"), (marks_key){0, {0, 0, 3, 6}});
        key("turn inverted", 0, mirror_turn_inverted(store, length));
        marked("e1", SHEET("e1\t2\t4\ne1\t1\t5\ne1\t0\t6\n"), (marks_key){0, {3, 0, 0, 0}});
        marked("e1", SHEET("e1\t0\t1\ne1\t2\t3\ne1\t1\t3\ne1\t4\t5\ne1\t3\t5\ne1\t5\t6\n"), (marks_key){0, {0, 0, 6, 3}});
        key("turn plain", 0, mirror_turn_plain(store, length));
    }
}

/* a full record: 1,024 A with its own list, each repeat at its first place, and with each at its last; numbers about the length and above it */
static void marks_of_full_records(int from_left)
{
    static char sheet[16 * 1024];
    char letters[1025] = "";
    int n = 0;
    memset(letters, 'A', 1024);
    record(mirror_open, letters, 1024, from_left);
    sitting = "1,024 A";
    for (int i = 1; i <= 1024; i++) n += sprintf(sheet + n, "e1\t0\t%d\n", i);
    marked("e1", sheet, (size_t)n, (marks_key){0, {1024, 0, 0, 0}});
    marked("e1", sheet, (size_t)n - 10, (marks_key){0, {1023, 0, 0, 1}});
    marked("e1", sheet, (size_t)n - 1, (marks_key){13, {0}});
    marked("e2", sheet, (size_t)n, (marks_key){0, {0, 0, 1024, 1024}});
    n = 0;
    for (int i = 1; i <= 1024; i++) n += sprintf(sheet + n, "e1\t%d\t1024\n", 1024 - i);
    marked("e1", sheet, (size_t)n, (marks_key){0, {1024, 0, 0, 0}});
    marked("e1", SHEET("e1\t0\t1023\ne1\t1\t1024\ne1\t1022\t1023\ne1\t1023\t1024\ne1\t0\t1024\n"), (marks_key){0, {3, 2, 0, 1021}});
    marked("e1", SHEET("e1\t0\t1025\ne1\t1024\t1025\ne1\t1024\t1024\ne1\t9999\t9999\ne1\t0\t9999\ne1\t9999\t0\n"), (marks_key){0, {0, 0, 6, 1024}});
    for (size_t i = 0; i < 1024; i++) letters[i] = "ACG"[i % 3];
    record(mirror_open, letters, 1024, from_left);
    sitting = "ACG again and again";
    marked("e1", SHEET("e1\t1023\t1024\ne1\t1022\t1023\ne1\t1021\t1022\n"), (marks_key){0, {3, 0, 0, 0}});
    marked("e1", SHEET("e1\t1023\t1024\ne1\t1021\t1024\ne1\t1020\t1021\n"), (marks_key){0, {1, 1, 1, 2}});
}

/* a run of A, a C and a run of A: each repeat named at its last place, where a short one stands at the end of many longer ones; of 1,024 letters,
 * then of 11, and of these each stretch of A behind the C a second time */
static void marks_at_last_places(int from_left)
{
    static char sheet[16 * 1024];
    char letters[1025] = "";
    int n = 0;
    memset(letters, 'A', 1024);
    letters[700] = 'C';
    record(mirror_open, letters, 1024, from_left);
    sitting = "700 A, C, 323 A";
    for (int i = 1; i <= 700; i++) n += sprintf(sheet + n, "e1\t%d\t%d\n", (i <= 323 ? 1024 : 700) - i, i <= 323 ? 1024 : 700);
    for (int i = 0; i <= 323; i++) n += sprintf(sheet + n, "e1\t%d\t%d\n", 700 - i, 701 + i);
    marked("e1", sheet, (size_t)n, (marks_key){0, {1024, 0, 0, 0}});
    record(mirror_open, "AAAAAAACAAA", 12, from_left);
    marked("e1", SHEET("e1\t10\t11\ne1\t9\t11\ne1\t8\t11\ne1\t3\t7\ne1\t2\t7\ne1\t1\t7\ne1\t0\t7\ne1\t7\t8\ne1\t6\t9\ne1\t5\t10\ne1\t4\t11\n"),
           (marks_key){0, {11, 0, 0, 0}});
    marked("e1", SHEET("e1\t8\t9\ne1\t8\t10\ne1\t8\t11\ne1\t9\t10\ne1\t9\t11\ne1\t10\t11\ne1\t7\t11\n"), (marks_key){0, {3, 3, 1, 8}});
}

/* more lines than two bytes can count: one right and 66,051 repeated, then 66,565 wrong */
static void marks_of_many_lines(void)
{
    enum { NAMED = 66052, OTHER = 66565, BYTES = 7 };
    static char sheet[(NAMED + OTHER) * BYTES + 1];
    record(mirror_open, "A", 1, 0);
    for (size_t i = 0; i < NAMED + OTHER; i++) memcpy(sheet + BYTES * i, i < NAMED ? "e1\t0\t1\n" : "e1\t0\t2\n", BYTES);
    marked("e1", sheet, (NAMED + OTHER) * BYTES, (marks_key){0, {1, 66051, 66565, 0}});
    marked("e1", sheet, (NAMED + OTHER) * BYTES + 1, (marks_key){13, {0}});
    marked("e2", sheet, (NAMED + OTHER) * BYTES, (marks_key){0, {0, 0, 132617, 1}});
}

/* ---- printed as in GenBank, 02 (iv) */

/* the first n of these letters as a record, and its page; the page is the same in either reading */
static void page_of(opening *open, size_t n, int from_left, const char *page)
{
    static const char all[] = "GATTACACCATGGACTTGCATCCGGTAACTAGGCTTATTCGAACCGTAAGCTTGGCACTGACCATG";
    char letters[sizeof all] = "";
    memcpy(letters, all, n);
    record(open, letters, 66, from_left);
    printed(page);
    for (size_t i = 0; i < sizeof turns / sizeof turns[0]; i++) {
        key("turn", 0, turns[i](store, length));
        printed(page);
    }
}

/* no letter, one group, two, a full line of six, and a second line */
static void pages(opening *open, int from_left)
{
    page_of(open, 0, from_left, "ORIGIN\n//\n");
    page_of(open, 1, from_left, "ORIGIN\n        1 g\n//\n");
    page_of(open, 9, from_left, "ORIGIN\n        1 gattacacc\n//\n");
    page_of(open, 10, from_left, "ORIGIN\n        1 gattacacca\n//\n");
    page_of(open, 11, from_left, "ORIGIN\n        1 gattacacca t\n//\n");
    page_of(open, 21, from_left, "ORIGIN\n        1 gattacacca tggacttgca t\n//\n");
    page_of(open, 59, from_left, "ORIGIN\n        1 gattacacca tggacttgca tccggtaact aggcttattc gaaccgtaag cttggcact\n//\n");
    page_of(open, 60, from_left, "ORIGIN\n        1 gattacacca tggacttgca tccggtaact aggcttattc gaaccgtaag cttggcactg\n//\n");
    page_of(open, 61, from_left, "ORIGIN\n        1 gattacacca tggacttgca tccggtaact aggcttattc gaaccgtaag cttggcactg\n       61 a\n//\n");
    page_of(open, 66, from_left, "ORIGIN\n        1 gattacacca tggacttgca tccggtaact aggcttattc gaaccgtaag cttggcactg\n       61 accatg\n//\n");
}

/* letters come and go at either end, so that every place moves */
static void pages_of_changes(opening *open)
{
    record(open, "ACCATTGACA", 12, 0);
    printed("ORIGIN\n        1 accattgaca\n//\n");
    key("add G left", 0, mirror_refusal(mirror_add_left(store, length, 'G')));
    printed("ORIGIN\n        1 gaccattgac a\n//\n");
    key("add T right", 0, mirror_refusal(mirror_add_right(store, length, 'T')));
    printed("ORIGIN\n        1 gaccattgac at\n//\n");
    key("the record is full", 5, mirror_add_left(store, length, 'C'));
    printed("ORIGIN\n        1 gaccattgac at\n//\n");
    for (int i = 0; i < 2; i++) key("remove left", 0, mirror_refusal(mirror_remove_left(store, length)));
    printed("ORIGIN\n        1 ccattgacat\n//\n");
    for (int i = 0; i < 9; i++) key("remove right", 0, mirror_refusal(mirror_remove_right(store, length)));
    printed("ORIGIN\n        1 c\n//\n");
    key("remove the last", 0, mirror_refusal(mirror_remove_left(store, length)));
    printed("ORIGIN\n//\n");
}

/* what the header says, worked out by hand: ten bytes, the letters, a blank for each ten and ten bytes for each sixty */
static void lengths_of_pages(void)
{
    static const struct { size_t letters, bytes; } pages[] = {
        {0, 10}, {1, 22}, {9, 30}, {10, 31}, {11, 33}, {59, 85}, {60, 86}, {61, 98}, {119, 161}, {120, 162}, {121, 174},
        {600, 770}, {960, 1226}, {999, 1279}, {1000, 1280}, {1001, 1282}, {1020, 1302}, {1021, 1314}, {1024, 1317}};
    for (size_t i = 0; i < sizeof pages / sizeof pages[0]; i++) key("the bytes of a page", pages[i].bytes, MIRROR_GENBANK_SIZE(pages[i].letters));
}

/* the longest page: 1,024 times A; its last line holds four letters, the line before those from 961 on */
static void longest_page(opening *open)
{
    static const char last[] = "\n      961 aaaaaaaaaa aaaaaaaaaa aaaaaaaaaa aaaaaaaaaa aaaaaaaaaa aaaaaaaaaa\n     1021 aaaa\n//\n";
    char letters[1025] = "";
    uint8_t out[1318];
    memset(letters, 'A', 1024);
    memset(out, '?', sizeof out);
    record(open, letters, 1024, 0);
    sitting = "1,024 A";
    key("a byte too few", 9, mirror_genbank(store, length, out, 1316));
    key("its first byte", '?', out[0]);
    key("its length", 1317ull << 32, mirror_genbank(store, length, out, 1317));
    key("its last lines", 0, memcmp(out + 1317 - strlen(last), last, strlen(last)) != 0);
    key("the byte behind it", '?', out[1317]);
}

/* the keys that ask for no repeat */
static void either_reading(opening *open)
{
    empty_at_every_capacity(open);
    full(open, "1,024 A", "A");
    full(open, "512 AC", "AC");
    full(open, "ACGT again and again", "ACGT");
    full(open, "a palindrome again and again", "AACCAA");
    full(open, "an uneven record", "");
    capitals_only(open);
    record(open, "A", 1, 0);
    key("add C right", 5, mirror_add_right(store, length, 'C'));
    for (int from_left = 0; from_left < 2; from_left++) pages(open, from_left);
    pages_of_changes(open);
    longest_page(open);
    written_of_damaged_stores(open);
}

/* the keys of one word, built from either end */
static void from_either_end(uint64_t capacity, int from_left)
{
    short_records(capacity, from_left);
    longer_records(capacity, from_left);
    restriction_site(capacity, from_left);
    no_repeats(capacity, from_left);
    if (capacity >= 10) nested_repeats(capacity, from_left);
    there_and_back(capacity, from_left);
    damaged(capacity, from_left);
    lengths(capacity, from_left);
    inverted_lengths(capacity, from_left);
    breaks_plain(capacity, from_left);
    breaks_inverted(capacity, from_left);
    if (capacity >= 10) places_of_a_figure(capacity, from_left);
    places_of_short_records(capacity, from_left);
    inverted_places(capacity, from_left);
    minimal_of_short_records(capacity, from_left);
    if (capacity >= 14) minimal_of_longer_records(capacity, from_left);
    minimal_of_inverted_records(capacity, from_left);
    pieces_of_short_records(capacity, from_left);
    if (capacity >= 14) pieces_of_longer_records(capacity, from_left);
    pieces_of_inverted_records(capacity, from_left);
    marks_of_sheets(capacity, from_left);
}

static void at_capacity(uint64_t capacity)
{
    for (int from_left = 0; from_left < 2; from_left++) from_either_end(capacity, from_left);
    searches(capacity);
    searches_after_turns(capacity);
    breaks_turned(capacity);
    places_of_rows_taken_again(capacity);
    rows_without_places(capacity);
    minimal_of_changes(capacity);
    pieces_of_changes(capacity);
    marks_of_changes(capacity);
}

int main(void)
{
    static const uint64_t capacities[] = {6, 7, 64, 1023, 1024};
    for (size_t i = 0; i < sizeof openings / sizeof openings[0]; i++) {
        either_reading(openings[i]);
        empty_turned(i);
        scratch_of_lists(openings[i]);
        refusals_of_marking(openings[i]);
    }
    for (size_t k = 0; k < sizeof capacities / sizeof capacities[0]; k++) at_capacity(capacities[k]);
    for (int from_left = 0; from_left < 2; from_left++) {
        most_places(from_left);
        minimal_of_full_records(from_left);
        pieces_of_full_records(from_left);
        marks_of_full_records(from_left);
        marks_at_last_places(from_left);
    }
    places_of_rows_taken_again(2);
    places_of_pairs();
    room_for_minimal();
    room_for_pieces();
    record(mirror_open, "A", 1, 0);
    pieces("1");
    uncertain_texts();
    sheets_that_are_none();
    marks_of_bytes();
    marks_of_identifiers();
    marks_of_many_lines();
    lengths_of_pages();
    longest_of_all();
    longest_search();
    breaks_in_the_middle();
    printf("%lu keys\n", compared);
    return 0;
}

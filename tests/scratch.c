/* The scratch of a list, 02 (ix), through the C boundary: one bit for each letter, rounded up to whole bytes. Records of both
 * readings have every number of letters from 0 to 40, from 342 to 347, from 686 to 691 (a library may count the lines of 344
 * repeats at a time) and from 1,014 to 1,024, and about as many repeats, few or none. Each is listed with every scratch size
 * about the need, of short records from 0 on, and before the call the scratch holds one of the 256 byte values: each of them
 * with each size of each short record, and in turn with those of long ones. A byte too few is 9 and leaves every byte; else the
 * lines are those that trying every stretch gives, the bytes needed are zeros, and every byte beyond stays. The buffers end at
 * a guard page or begin right after one. Usage: scratch [STEP], for every STEP-th of the byte values */
#include "brute.h"
#include "guard.h"
#include "layout.h"
#include "mirror.h"
#include "random.h"
#include <stdio.h>
#include <stdlib.h>
#include <string.h>

enum { MOST = LAYOUT_MOST, SHORT = 40, VALUES = 256, FEWER = 32, FILLING = 0x5a };
enum { STORE_SLOT, NAME_SLOT, SCRATCH_SLOT, OUT_SLOT };
enum { ALL_A, PAIRS, TWO_KINDS, FOUR_KINDS, WORDS };
enum { AT_THE_RIGHT, AT_THE_LEFT, BEHIND_OTHERS, WAYS };

static const unsigned char others[] = "GCGCT";
static unsigned reading;
static unsigned char word[MOST];
static stretch repeats[MOST]; /* of the whole word, and how many they are */
static size_t count;
static uint8_t *store;
static size_t store_length, size; /* the record has so many letters of the word */
static char lines[MIRROR_LIST_SIZE(MOST)];
static size_t lines_length;
static unsigned long lists, refused;
static unsigned step = 1; /* from one byte value to the next */

static void fail(const char *what, size_t lent, unsigned value, unsigned long long wanted, unsigned long long got)
{
    printf("%zu letters, %.*s%s (%s), %zu bytes of %u as scratch: %s: wanted %llx, got %llx\n", size, (int)(size < 60 ? size : 60), (char *)word,
           size < 60 ? "" : "..", reading == PLAIN ? "plain" : "inverted", lent, value, what, wanted, got);
    exit(1);
}

/* ---- records */

/* A alone has as many plain repeats as letters and no inverted one, AT again and again nearly as many inverted ones */
static void choose_word(int kind)
{
    for (size_t i = 0; i < MOST; i++)
        word[i] = (unsigned char)(kind == ALL_A ? 'A' : kind == PAIRS ? "AT"[i % 2] : "ATCG"[random_below(kind == TWO_KINDS ? 2 : 4)]);
    count = brute_list(brute_rule(reading), word, MOST, repeats);
}

/* the lines of the record: what first ends within its letters stands there at its first place of all */
static void choose_lines(void)
{
    lines_length = 0;
    for (size_t i = 0; i < count && repeats[i].end <= size; i++)
        lines_length += (size_t)sprintf(lines + lines_length, "e1\t%zu\t%zu\n", repeats[i].start, repeats[i].end);
}

static void done(uint64_t answer)
{
    if (mirror_refusal(answer) != 0) fail("a change is refused", 0, 0, 0, answer);
}

/* The word's first letters as a record. Each way gives its repeats the rows in another order; behind letters that go again they
 * have rows beyond their number. */
static void make_record(size_t n, size_t capacity, int way)
{
    size_t before = way == BEHIND_OTHERS ? sizeof others - 1 : 0;
    size = n;
    store_length = MIRROR_STORE_SIZE(capacity);
    store = guard_room(STORE_SLOT, store_length);
    done((reading == PLAIN ? mirror_open : mirror_open_inverted)(store, store_length, capacity));
    for (size_t i = 0; i < before; i++) done(mirror_add_right(store, store_length, others[i]));
    for (size_t i = 0; i < n; i++)
        done(way == AT_THE_LEFT ? mirror_add_left(store, store_length, word[n - 1 - i]) : mirror_add_right(store, store_length, word[i]));
    for (size_t i = 0; i < before; i++) done(mirror_remove_left(store, store_length));
    choose_lines();
}

static void grow_to(size_t n)
{
    while (size < n) done(mirror_add_right(store, store_length, word[size++]));
    choose_lines();
}

/* ---- lists */

/* one list into so many bytes, with scratch of so many bytes that all hold the value */
static void one_list(size_t lent, unsigned value, size_t room)
{
    size_t need = layout_scratch(size);
    int accepted = lent >= need && room >= lines_length;
    uint8_t *name = guarded(NAME_SLOT, (const unsigned char *)"e1", 2), *scratch = guard_room(SCRATCH_SLOT, lent), *out = guard_room(OUT_SLOT, room);
    uint64_t wanted = accepted ? (uint64_t)lines_length << 32 : MIRROR_NO_ROOM;
    memset(scratch, (int)value, lent);
    memset(out, FILLING, room);
    uint64_t got = mirror_list(store, store_length, name, 2, scratch, lent, out, room);
    lists++;
    refused += !accepted;
    if (got != wanted) fail("the answer", lent, value, wanted, got);
    for (size_t i = 0; i < lent; i++) {
        unsigned byte = accepted && i < need ? 0 : value;
        if (scratch[i] != byte) fail(i < need ? "a scratch byte that is needed" : "a scratch byte beyond", lent, value, byte, scratch[i]);
    }
    if (accepted && memcmp(out, lines, lines_length) != 0) fail("the lines", lent, value, 0, 1);
    for (size_t i = accepted ? lines_length : 0; i < room; i++)
        if (out[i] != FILLING) fail("an output byte beyond", lent, value, FILLING, out[i]);
}

/* scratch of one size; the output has just the bytes of the lines or one more, and now and then one fewer, which is 9 too */
static void one_size(size_t lent, unsigned value)
{
    one_list(lent, value, lines_length + value % 2);
    if (lines_length > 0 && value % 8 == 0) one_list(lent, value, lines_length - 1);
}

static void short_records(int kind)
{
    for (size_t n = 0; n <= SHORT; n++) {
        guard_at((n + (size_t)kind) % 2 ? GUARD_BEFORE : GUARD_AFTER);
        make_record(n, n + sizeof others, (int)((n + (size_t)kind) % WAYS));
        for (size_t lent = 0; lent <= layout_scratch(n) + 2; lent++)
            for (unsigned value = 0; value < VALUES; value += step) one_size(lent, value);
    }
}

/* one record that grows at the right; each of its lengths goes on where the one before left off among the byte values */
static void long_records(int kind)
{
    static const size_t from_to[][2] = {{342, 347}, {686, 691}, {1014, 1024}}; /* 23 lengths: over the eight words each meets every byte value */
    static unsigned next;
    guard_at(kind % 2 ? GUARD_BEFORE : GUARD_AFTER);
    make_record(from_to[0][0], MOST, kind % WAYS);
    for (size_t i = 0; i < sizeof from_to / sizeof from_to[0]; i++)
        for (size_t n = from_to[i][0]; n <= from_to[i][1]; n++, next += FEWER) {
            grow_to(n);
            for (size_t lent = layout_scratch(n) - 2; lent <= layout_scratch(n) + 2; lent++)
                for (unsigned value = next; value < next + FEWER; value += step) one_size(lent, value % VALUES);
        }
}

int main(int argc, char **argv)
{
    if (argc > 1 && atoi(argv[1]) > 0) step = (unsigned)atoi(argv[1]);
    random_seed(NULL, 20261118);
    for (reading = PLAIN; reading < READINGS; reading++)
        for (int kind = 0; kind < WORDS; kind++) {
            choose_word(kind);
            short_records(kind);
            long_records(kind);
        }
    printf("%lu lists with scratch about the need, %lu of them refused\n", lists, refused);
    return 0;
}

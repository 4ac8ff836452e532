/* Damaged stores: a good store of either reading is made by calls, damaged in one of the ways of damages.c, and then every
 * call that takes a store must answer 3 exactly where the judge finds it not good, must answer as the oracle says where it
 * is good, and must change no byte where it refuses. In small stores each cell of each row is changed in turn: those that say
 * something of a palindrome, its edges and its place or of an end, those that carry a number of repeats or the largest length,
 * and those that are not used. Usage: damage [seed [rounds]] */
#include "damages.h"
#include "guard.h"
#include "mirror.h"
#include "oracle.h"
#include "random.h"
#include <stdio.h>
#include <stdlib.h>
#include <string.h>

enum { ROOM = 50 * 1024, STORE_SLOT = 3, IDLE_LIMIT = 100000, SMALL = 10, SMALL_STORES = 6 };

static uint8_t good[ROOM], damaged[ROOM];
static size_t good_length, damaged_length;
static shown shows;
static unsigned char list[ROOM]; /* of the good store's repeats, under the name: a sheet with full marks */
static size_t list_length;
static const unsigned char name[] = "rec_1", bad_name[] = "rec-1";
static unsigned long made[2], for_header;

static void stop(const char *kind, const char *what)
{
    printf("%s: %s\n", kind, what);
    exit(1);
}

/* few or, now and then, many letters */
static unsigned some_capacity(void)
{
    return random_below(20) ? 1 + random_below(random_below(2) ? 6 : 30) : 200 + random_below(825);
}

static void list_good(void)
{
    static stretch lines[LAYOUT_MOST];
    size_t n = brute_list(shows.rule, shows.letters, shows.size, lines);
    list_length = 0;
    for (size_t i = 0; i < n; i++) list_length += (size_t)sprintf((char *)list + list_length, "%s\t%zu\t%zu\n", name, lines[i].start, lines[i].end);
}

/* a good store whose rows were taken and given back; of the letters two are partners, and some join as a pair around the whole
 * record, so that an inverted one has repeats too */
static void make_good(unsigned reading, unsigned capacity)
{
    unsigned alphabet = 1 + random_below(4), steps = random_below(capacity < 100 ? 3 * capacity : 150), removing = random_below(50);
    good_length = MIRROR_STORE_SIZE(capacity) + random_below(3) * 7;
    for (size_t i = 0; i < good_length; i++) good[i] = (uint8_t)random_below(256);
    oracle_open(good, good_length, reading, capacity);
    for (unsigned i = 0; i < steps; i++) {
        unsigned letter = (unsigned)"ATCG"[random_below(alphabet)];
        if (random_below(100) < removing) (random_below(2) ? mirror_remove_left : mirror_remove_right)(good, good_length);
        else (random_below(2) ? mirror_add_left : mirror_add_right)(good, good_length, letter);
        if (random_below(4) > 0) continue;
        mirror_add_left(good, good_length, brute_rule(reading)[letter]);
        mirror_add_right(good, good_length, letter);
    }
    const char *wrong = judge(good, good_length, &shows);
    if (wrong) stop("a store made by calls is not good", wrong);
    list_good();
}

/* one call on a copy of the damaged store */
static void one_call(const call *c)
{
    uint8_t *store = guarded(STORE_SLOT, damaged, damaged_length);
    oracle(store, damaged_length, c);
}

/* the bytes that the page, the minimal unique repeats or the pieces of the record take before the damage; those of an inverted record
 * as if it were cut */
static size_t bytes_of(call_kind kind)
{
    static stretch minimal[LAYOUT_MOST];
    static size_t ends[LAYOUT_MOST];
    if (kind == GENBANK) return MIRROR_GENBANK_SIZE(shows.size);
    if (kind == PIECES) return PIECE_BYTES * brute_pieces(shows.letters, shows.size, ends);
    return STRETCH_BYTES * brute_minimal_unique(shows.rule, shows.letters, shows.size, minimal);
}

/* the list of the good store as a sheet, whole, without its first line or without its last byte, and a mark sheet of about its size or of
 * any */
static void mark_list(call *c, int refused)
{
    c->text = refused && random_below(4) == 0 ? bad_name : name;
    c->text_length = sizeof name - 1;
    c->sheet = list;
    if (list_length > 0 && random_below(3) == 0) c->sheet = (unsigned char *)memchr(list, '\n', list_length) + 1;
    c->sheet_length = (size_t)(list + list_length - c->sheet);
    if (refused && c->sheet_length > 0 && random_below(3) == 0) c->sheet_length--;
    c->out_length = refused ? random_below(MARKS_BYTES + 8) : MARKS_BYTES + random_below(3);
}

/* every call, with arguments that a good store would take and with arguments that it would refuse */
static void every_call(void)
{
    static const unsigned char piece[] = "ATAT", bad_piece[] = "AN";
    unsigned row = random_below((unsigned)shows.capacity + 3), letter = (unsigned)"ACGT"[random_below(4)];
    size_t out = 64 * 1024 - random_below(2), scratch = layout_scratch(shows.size);
    for (call_kind kind = ADD_LEFT; kind < CALL_KINDS; kind++) {
        int of_row = kind == ROW || kind == FREQUENCY || kind == SPELL, writes_all = kind >= GENBANK && kind <= PIECES;
        size_t bytes = writes_all ? bytes_of(kind) : 0;
        call c = {.kind = kind, .number = kind == LETTER ? random_below((unsigned)shows.size + 1) : of_row ? row : letter};
        if (kind == FIND) c.text = piece, c.text_length = 1 + random_below(4);
        if (kind == SPELL) c.out_length = shows.size + random_below(3);
        if (kind == LIST) c.text = name, c.text_length = 5, c.scratch_length = scratch + random_below(3), c.out_length = out;
        if (writes_all) c.out_length = bytes + random_below(6);
        if (kind == MARK) mark_list(&c, 0);
        one_call(&c);
        if (kind >= REMOVE_LEFT && kind < LETTER) continue; /* no argument: it would be the same call again */
        c.number = kind <= ADD_RIGHT ? letter + 256 : 65536 + row;
        if (kind == FIND) c.text = bad_piece, c.text_length = 2 * random_below(2);
        if (kind == SPELL) c.number = row, c.out_length = 0;
        if (kind == LIST) c.text = random_below(4) ? name : bad_name, c.scratch_length = scratch - (scratch > 0);
        if (kind == LIST) c.out_length = random_below(2) ? MIRROR_LIST_SIZE(shows.size) : random_below(20);
        if (kind == MARK) mark_list(&c, 1);
        if (writes_all) c.out_length = bytes > 0 && random_below(2) ? bytes - 1 : random_below((unsigned)bytes + 1);
        one_call(&c);
    }
}

/* a damaged store that is good is worked on like any other: additions, removals and turns */
static void work_on(void)
{
    uint8_t *store = guarded(STORE_SLOT, damaged, damaged_length);
    for (int i = 0; i < 6; i++) {
        call c = {.kind = ADD_LEFT + random_below(LENGTH - ADD_LEFT), .number = (unsigned)"ACGT"[random_below(4)]};
        oracle(store, damaged_length, &c);
    }
}

static void copy_good(void)
{
    memcpy(damaged, good, good_length);
    damaged_length = good_length;
}

/* every call on the damaged store; 1 where it is not good */
static int judged_bad(void)
{
    every_call();
    const char *wrong = oracle_verdict();
    if (!wrong) work_on();
    if (wrong && strncmp(wrong, "header:", 7) == 0) for_header++;
    made[wrong != NULL]++;
    return wrong != NULL;
}

static void one_damage(const damage *d, unsigned reading, unsigned long tally[2])
{
    int idle = 0;
    do {
        if (idle++ > IDLE_LIMIT) stop(d->name, "never found a store to damage");
        make_good(reading, some_capacity());
        copy_good();
    } while (!d->make(damaged, &damaged_length, &shows));
    tally[judged_bad()]++;
}

static void one_kind(const damage *d, unsigned reading, int rounds)
{
    unsigned long tally[2] = {0, 0};
    for (int i = 0; i < rounds; i++) {
        guard_at(i % 2 ? GUARD_BEFORE : GUARD_AFTER);
        one_damage(d, reading, tally);
    }
    printf("%-28s %-8s %5lu good %5lu bad\n", d->name, reading == PLAIN ? "plain" : "inverted", tally[0], tally[1]);
    if ((d->outcomes & MAKES_GOOD) && tally[0] == 0) stop(d->name, "no store was good");
    if ((d->outcomes & MAKES_BAD) && tally[1] == 0) stop(d->name, "no store was bad");
    if (!(d->outcomes & (MAKES_GOOD | MAY_BE_GOOD)) && tally[0] > 0) stop(d->name, "a store was good");
    if (!(d->outcomes & (MAKES_BAD | MAY_BE_BAD)) && tally[1] > 0) stop(d->name, "a store was bad");
}

/* by what the layout says the damaged store is bad, or still good */
static void must_be(int bad)
{
    if (judged_bad() != bad) stop(bad ? "a cell that says something" : "a cell that is not used", bad ? "it may be wrong" : "it may not be changed");
}

static void one_cell(size_t r, size_t cell, unsigned value, int bad)
{
    copy_good();
    layout_put(damaged, r, cell, value);
    must_be(bad);
}

/* each cell of what a row says, of its edges, of the order and of the ends, with another number: none but its own is right */
static void every_row_cell(void)
{
    for (size_t r = 0; r < shows.capacity + 2; r++)
        for (size_t f = 0; f < (r == 0 ? CELL_CAPACITY : CELL_CARRIED); f++) {
            unsigned now = layout_cell(good, r, f), choice[4] = {now + 1, now - 1, now + 256, now + 2 + random_below(8)};
            one_cell(r, f, choice[random_below(4)], 1);
        }
}

static void carried_exchanged(size_t r, size_t q)
{
    unsigned one = layout_cell(good, r, CELL_CARRIED), other = layout_cell(good, q, CELL_CARRIED);
    if (one == other) return;
    copy_good();
    layout_put(damaged, r, CELL_CARRIED, other);
    layout_put(damaged, q, CELL_CARRIED, one);
    must_be(1);
}

/* each number that the good store carries, the largest length first: one more, one less, another high byte, exchanged with each
 * that differs; and each cell that is not used with any number */
static void every_carried_cell(void)
{
    for (size_t r = 1; r < shows.capacity + 2; r++) {
        unsigned now = layout_cell(good, r, CELL_CARRIED);
        one_cell(r, CELL_CARRIED, now + 1, 1);
        one_cell(r, CELL_CARRIED, now - 1, 1);
        one_cell(r, CELL_CARRIED, now + 256, 1);
        one_cell(r, CELL_UNUSED, 1 + random_below(65535), 0);
        for (size_t q = 1; q < r; q++) carried_exchanged(r, q);
    }
}

static void small_stores(unsigned reading)
{
    for (unsigned capacity = 1; capacity <= SMALL; capacity++)
        for (int i = 0; i < SMALL_STORES; i++) {
            guard_at(i % 2 ? GUARD_BEFORE : GUARD_AFTER);
            make_good(reading, capacity);
            every_row_cell();
            every_carried_cell();
        }
}

int main(int argc, char **argv)
{
    random_seed(argc > 1 ? argv[1] : NULL, 20251116);
    int rounds = argc > 2 ? atoi(argv[2]) : 300;
    setvbuf(stdout, NULL, _IOLBF, 0);
    for (size_t i = 0; i < damage_kinds; i++)
        for (unsigned reading = PLAIN; reading < READINGS; reading++) one_kind(&damages[i], reading, rounds);
    for (unsigned reading = PLAIN; reading < READINGS; reading++) small_stores(reading);
    if (for_header * 2 > made[1]) stop("damage", "most stores are bad for their header alone");
    printf("%lu damaged stores judged good, %lu bad (%lu of them by the header), %lu calls agree\n", made[0], made[1], for_header, oracle_calls);
    return 0;
}

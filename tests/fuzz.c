/* A fuzz target for the C boundary: the input is a list of calls and of damage to the store, and every call is held
 * against the oracle. It runs under libFuzzer (tests/fuzz-run), under AFL++ and by hand: the standalone program reads
 * the files named, or standard input.
 *
 * The first byte gives the capacity and, from 128 on, an inverted record. Then: acgt add at the right, ACGT at the left,
 * < and > remove at an end, ? and a byte ask a question, ! and three bytes change a byte, = and three bytes set a cell, # and
 * two bytes do one of the kinds of damages.c, ~ takes the last good store again, / and a byte change the length lent, @ and a
 * byte open again, & and a byte open an inverted record, p and i turn to the plain and to the inverted reading, % and four bytes
 * find a repeat of the record, or any stretch of it, with one letter changed, u and some bytes ask for the lengths of an uncertain
 * text, m and some bytes mark a sheet: the record's own list, the same with a byte changed, lines, or bytes as they are. Any other byte
 * is added as a letter that is none. A missing argument is 0. */
#include "damages.h"
#include "guard.h"
#include "oracle.h"
#include "random.h"
#include "second_uncertain.h"
#include <stdio.h>
#include <stdlib.h>
#include <string.h>

enum { ROOM = 60 * 1024, STORE_SLOT = 3, CODES_SLOT, TEXT = 40, LINES = 28 };

int LLVMFuzzerTestOneInput(const uint8_t *data, size_t size);

static const uint8_t *input;
static size_t left_over;
static uint8_t *store, kept[ROOM];
static size_t length, whole, kept_length;

static unsigned next(void)
{
    if (left_over == 0) return 0;
    left_over--;
    return *input++;
}

static void make(call_kind kind, uint64_t number)
{
    call c = {.kind = kind, .number = number};
    oracle(store, length, &c);
}

/* a small buffer length, or one that is always enough */
static size_t room(void)
{
    unsigned n = next();
    return n < 200 ? n : 48 * 1024;
}

static void ask(void)
{
    unsigned char text[TEXT];
    unsigned what = next();
    call c = {.kind = LENGTH + what % (MARK - LENGTH), .text = text}; /* a sheet has a letter of its own */
    if (c.kind >= LETTER && c.kind <= SPELL) c.number = what < 128 ? next() : (uint64_t)next() << (what % 57); /* a place or a row */
    if (c.kind != LIST && call_writes(c.kind)) c.out_length = room();
    if (c.kind == FIND || c.kind == LIST) {
        c.text_length = next() % TEXT;
        for (size_t i = 0; i < c.text_length; i++) text[i] = (unsigned char)next();
    }
    if (c.kind == LIST) c.scratch_length = next() % 6, c.out_length = room(); /* up to 24 letters: 3 bytes are enough */
    oracle(store, length, &c);
}

/* A piece that is nearly a repeat: what a row in use spells, or any stretch of the record where the byte names no such row, now
 * and then with its mirror image behind it, and then one letter set to any of the four. */
static void ask_near(void)
{
    static shown s;
    unsigned char text[2 * TEXT];
    unsigned row = next(), more = next(), place = next(), letter = next();
    if (judge(store, length, &s) != NULL || s.size == 0 || s.size > TEXT) return;
    stretch part = s.rows[row % (s.capacity + 2)]; /* 0 to 0 where no repeat has the row */
    if (part.end == 0) part.start = row % s.size, part.end = part.start + 1 + more / 2 % (s.size - part.start);
    size_t n = part.end - part.start;
    memcpy(text, s.letters + part.start, n);
    for (size_t i = 0; i < n; i++) text[2 * n - 1 - i] = s.rule[text[i]];
    if (more % 2) n *= 2;
    text[place % n] = (unsigned char)"ACGT"[letter % 4];
    call c = {.kind = FIND, .text = text, .text_length = n};
    oracle(store, length, &c);
}

/* A text of uncertain bases, which takes no store. Two bytes say how long it is, seldom about as many codes as there may be, and a
 * third of how many of the bytes that follow it is made, again and again; each names a code or, where the third is from 128 on, is
 * taken as it is. */
static void ask_codes(void)
{
    static const char codes[] = "ACGTRYMKSWBDHVNacgtrymkswbdhvn";
    unsigned high = next(), low = next(), third = next(), of = 1 + third % TEXT;
    size_t n = high < 192 ? low % TEXT : high < 254 ? low + high % 8 : MOST_CODES - 2 + low % 8;
    uint8_t part[TEXT], *text = guard_room(CODES_SLOT, n);
    for (size_t i = 0; i < of; i++) part[i] = (uint8_t)next();
    for (size_t i = 0; i < of && third < 128; i++) part[i] = (uint8_t)codes[part[i] % (sizeof codes - 1)];
    for (size_t i = 0; i < n; i++) text[i] = part[i % of];
    uint64_t wanted = second_uncertain(text, n), got = mirror_uncertain(text, n);
    int stays = 1;
    for (size_t i = 0; i < n; i++) stays &= text[i] == part[i % of];
    oracle_calls++;
    if (got == wanted && stays) return;
    printf("uncertain %.*s, again and again to %zu codes: wanted %llx, got %llx%s\n", (int)of, (char *)part, n, (unsigned long long)wanted,
           (unsigned long long)got, stays ? "" : ", and a byte of the text changed");
    abort();
}

static size_t put_line(unsigned char *sheet, const call *c, size_t start, size_t end)
{
    memcpy(sheet, c->text, c->text_length);
    return c->text_length + (size_t)sprintf((char *)sheet + c->text_length, "\t%zu\t%zu\n", start, end);
}

/* the list of the repeats that a good store shows, no line where it is not good */
static size_t own_list(unsigned char *sheet, const call *c)
{
    static shown s;
    stretch list[LINES];
    size_t n = judge(store, length, &s) == NULL && s.size <= LINES ? brute_list(s.rule, s.letters, s.size, list) : 0, bytes = 0;
    for (size_t i = 0; i < n; i++) bytes += put_line(sheet + bytes, c, list[i].start, list[i].end);
    return bytes;
}

/* a few lines of two bytes each, or bytes as they are, many of which mean something in a line */
static size_t some_lines(unsigned char *sheet, const call *c, int as_they_are)
{
    static const char meant[] = "\t\n\t\n0123456789e1";
    size_t n = next() % LINES, bytes = 0;
    for (size_t i = 0; i < n; i++) {
        unsigned start = next(), end = as_they_are ? 0 : next();
        if (as_they_are) sheet[bytes++] = start < 192 ? (unsigned char)meant[start % (sizeof meant - 1)] : (unsigned char)start;
        else bytes += put_line(sheet + bytes, c, start < 250 ? start % LINES : 4 * start, end < 250 ? end % LINES : 4 * end);
    }
    return bytes;
}

/* A sheet. The first byte says of which kind it is and, from 128 on, that an identifier follows, which is e1 otherwise; the second how
 * long the mark sheet is. */
static void ask_marks(void)
{
    unsigned char sheet[LINES * (TEXT + 12)], text[TEXT] = "e1";
    unsigned what = next(), kind = what % 4;
    call c = {.kind = MARK, .text = text, .text_length = 2, .sheet = sheet, .out_length = next() % (MARKS_BYTES + 8)};
    if (what >= 128) c.text_length = next() % TEXT;
    for (size_t i = 0; what >= 128 && i < c.text_length; i++) text[i] = (unsigned char)next();
    c.sheet_length = kind < 2 ? own_list(sheet, &c) : some_lines(sheet, &c, kind == 3);
    if (kind == 1 && c.sheet_length > 0) {
        size_t high = next(), at = (256 * high + next()) % c.sheet_length;
        sheet[at] = (unsigned char)next();
    }
    oracle(store, length, &c);
}

/* damage that needs a good store to start from; what was good is kept for ~ */
static void spoil(void)
{
    static shown s;
    unsigned kind = next(), seed = next();
    random_seed(NULL, 1 + seed);
    if (judge(store, length, &s) != NULL) return;
    memcpy(kept, store, length);
    kept_length = length;
    damages[kind % damage_kinds].make(store, &length, &s);
}

static void restore(void)
{
    memcpy(store, kept, kept_length);
    length = kept_length;
}

static void open_again(unsigned reading, unsigned number)
{
    uint64_t capacity = number < 250 ? number % 24 + 1 : number == 250 ? 1025 : number - 251;
    if (oracle_open(store, length, reading, capacity) != 0) return;
    memcpy(kept, store, length);
    kept_length = length;
}

static void one(unsigned what)
{
    size_t at;
    switch (what) {
    case 'a': case 'c': case 'g': case 't': make(ADD_RIGHT, what - 32); break;
    case 'A': case 'C': case 'G': case 'T': make(ADD_LEFT, what); break;
    case '<': make(REMOVE_LEFT, 0); break;
    case '>': make(REMOVE_RIGHT, 0); break;
    case 'p': make(TURN_PLAIN, 0); break;
    case 'i': make(TURN_INVERTED, 0); break;
    case '?': ask(); break;
    case '%': ask_near(); break;
    case 'u': ask_codes(); break;
    case 'm': ask_marks(); break;
    case '!': at = (next() * 256 + next()) % whole; store[at] = (uint8_t)next(); break;
    case '=': at = next() % 26; what = next(); layout_put(store, at % (whole / 48), what % ROW_CELLS, next()); break;
    case '#': spoil(); break;
    case '~': restore(); break;
    case '/': length = whole - next() % 12; break;
    case '@': open_again(PLAIN, next()); break;
    case '&': open_again(INVERTED, next()); break;
    default: make(what % 2 ? ADD_LEFT : ADD_RIGHT, what < 128 ? what : (uint64_t)what << (what % 57));
    }
}

int LLVMFuzzerTestOneInput(const uint8_t *data, size_t size)
{
    input = data;
    left_over = size;
    unsigned first = next();
    guard_at(first % 2 ? GUARD_BEFORE : GUARD_AFTER);
    length = whole = layout_size(first % 24 + 1) + first % 7;
    store = guard_room(STORE_SLOT, whole);
    memset(store, (int)first, whole);
    memcpy(kept, store, whole);
    kept_length = whole;
    open_again(first < 128 ? PLAIN : INVERTED, first % 24);
    while (left_over > 0) one(next());
    make(COUNT, 0);
    return 0;
}

#ifndef FUZZ_ENGINE
static void run(FILE *in)
{
    static uint8_t data[1 << 20];
    LLVMFuzzerTestOneInput(data, fread(data, 1, sizeof data, in));
}

/* inputs that look random, mostly of bytes that mean something */
static void run_random(const char *seed, int rounds)
{
    static const char meant[] = "acgtACGTacgtACGT<>?%#~!=/@&pium";
    uint8_t data[200];
    for (int i = 0; i < rounds; i++) {
        random_seed(NULL, strtoull(seed, NULL, 10) * 1000003u + 2u * (unsigned)i + 1);
        size_t n = 1 + random_below(sizeof data);
        for (size_t k = 0; k < n; k++) data[k] = random_below(6) ? (uint8_t)meant[random_below(sizeof meant - 1)] : (uint8_t)random_below(256);
        LLVMFuzzerTestOneInput(data, n);
    }
}

/* fuzz FILE..   fuzz --random SEED INPUTS   fuzz < FILE */
int main(int argc, char **argv)
{
    int inputs = argc == 1 ? 1 : argc - 1;
    if (argc == 4 && strcmp(argv[1], "--random") == 0) run_random(argv[2], inputs = atoi(argv[3]));
    else if (argc == 1) run(stdin);
    else
        for (int i = 1; i < argc; i++) {
            FILE *in = fopen(argv[i], "rb");
            if (in == NULL) {
                perror(argv[i]);
                return 1;
            }
            run(in);
            fclose(in);
        }
    printf("%d inputs, %lu calls agree\n", inputs, oracle_calls);
    return 0;
}
#endif

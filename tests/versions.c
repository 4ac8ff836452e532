/* Two versions of the library side by side: each call goes to both with the same arguments and equal bytes lent, and the
 * answers and every lent byte afterwards must be equal. Long sittings at both ends with turns and every question, structured
 * words up to full length with both ends asked at every letter, stores damaged in every way, FASTA texts, texts of uncertain bases,
 * lists of repeats and of the minimal unique ones, pages, the fewest pieces and sheets; nothing is judged here but that both do the
 * same, and that each leaves its scratch as a list must. tests/versions builds the two.
 *
 *     versions ONE.so OTHER.so SEED CALLS [LEFT OUT..]
 *
 * CALL leaves a call out, CALL.flag, .row, .first or .second that field of its answer; `store` leaves out the stores'
 * bytes, for versions that lay a store out differently: then no store is damaged either; `small` gives the second version
 * capitals where a later line of a FASTA text has small letters, which the first versions refused. Without open_inverted,
 * named or not in both, every record is plain, and none is turned to the inverted reading. A list's scratch was four bytes for
 * each letter before it was a bit: each version is tried first, and is lent its own need, or as many bytes more or fewer. */
#include "calls.h"
#include "damages.h"
#include "fasta_texts.h"
#include "guard.h"
#include "random.h"
#include "uncertain_texts.h"
#include <stdio.h>
#include <stdlib.h>
#include <string.h>

enum { MOST = 1024, PIECE = MOST + 8, FASTA_MOST = 8192 };
enum { TEXT_SLOT, OUT_SLOT, SCRATCH_SLOT = OUT_SLOT + 2, STORE_SLOT = SCRATCH_SLOT + 2 };
enum { OUT_FILLING = 0x5a, SCRATCH_FILLING = 0xa5, SHEET_LINES = 12 };
enum { EXTRA = 60 }; /* fewer bytes than this are lent beyond what a store needs; 48 would do for one letter more */
enum { SMALL = 24 }; /* up to so many letters the judge, which damage asks, is fast */
enum { ALL_A, PAIRS, FIBONACCI, THUE_MORSE, WORDS };

static library both[2];
static uint8_t *stores[2], *outs[2], *scratches[2], *text, *sheet;
static size_t whole, length, capacity, size; /* damage may cut the length that is lent of the whole store */
static unsigned char letters[MOST + 1];
static const unsigned char *rule; /* of the record that stands */
static uint64_t left_out[LIBRARY_CALLS]; /* bits of each call's answer that are not compared; all: it is not made */
static int stores_apart, without_small, by_the_bit[2]; /* by_the_bit: whether a bit of scratch for each letter is enough */
static unsigned long compared[LIBRARY_CALLS], refused, damaged_calls, total;

/* ---- one call on both */

static void differ(unsigned which, const char *what, uint64_t one, uint64_t other)
{
    printf("%s: %s differs: %016llx and %016llx, after %lu calls; %zu letters, capacity %zu, store of %zu bytes\n", library_names[which], what,
           (unsigned long long)one, (unsigned long long)other, total, size, capacity, length);
    exit(1);
}

static void same_bytes(unsigned which, const char *what, uint8_t *const *bytes, size_t n)
{
    if (n == 0 || memcmp(bytes[0], bytes[1], n) == 0) return;
    size_t i = 0;
    while (bytes[0][i] == bytes[1][i]) i++;
    printf("byte %zu of %zu: ", i, n);
    differ(which, what, bytes[0][i], bytes[1][i]);
}

static uint64_t same_answer(unsigned which, const uint64_t *answers)
{
    uint64_t shown = ~left_out[which];
    total++;
    compared[which]++;
    refused += (answers[0] & 0xff) != 0;
    if ((answers[0] ^ answers[1]) & shown) differ(which, "the answer", answers[0], answers[1]);
    return answers[0];
}

static uint8_t *lend(int slot, size_t n, uint8_t filling)
{
    return memset(guard_room(slot, n), filling, n);
}

/* the scratch that a version needs for a list of its store; any that is not good is refused before */
static size_t scratch_need(int i)
{
    size_t n = mirror_first(both[i].length(stores[i], length));
    return by_the_bit[i] ? MIRROR_LIST_SCRATCH(n) : 4 * n;
}

/* An accepted list leaves zeros in what it needs and every byte beyond as it was, a refused one every byte: where the two
 * versions need unlike scratch, their bytes cannot be held against each other. */
static void scratch_left(int i, size_t need, size_t lent, uint64_t answer)
{
    for (size_t k = 0; k < lent; k++) {
        uint8_t wanted = (answer & 0xff) == 0 && k < need ? 0 : SCRATCH_FILLING;
        if (scratches[i][k] == wanted) continue;
        printf("byte %zu of %zu, of which %zu are needed, in version %d: ", k, lent, need, i + 1);
        differ(LIST, "the scratch from what it must be", wanted, scratches[i][k]);
    }
}

/* A list on one version. The call counts the bytes of scratch from one too few on, so 1 is what this version needs; where that
 * is none, from none on. */
static uint64_t make_list(int i, const call *c)
{
    size_t need = scratch_need(i);
    call mine = *c;
    mine.scratch_length += need - (need > 0);
    scratches[i] = lend(SCRATCH_SLOT + i, mine.scratch_length, SCRATCH_FILLING);
    uint64_t answer = call_make(&both[i], stores[i], length, &mine, &(buffers){text, scratches[i], outs[i], NULL});
    scratch_left(i, need, mine.scratch_length, answer);
    return answer;
}

static uint64_t make(const call *c)
{
    unsigned which = c->kind;
    uint64_t answers[2];
    if (left_out[which] == UINT64_MAX) return 0xff;
    text = guarded(TEXT_SLOT, c->text, c->text_length);
    sheet = guarded(SCRATCH_SLOT, c->sheet, c->sheet_length); /* what takes a sheet takes no scratch */
    for (int i = 0; i < 2; i++) {
        outs[i] = lend(OUT_SLOT + i, c->out_length, OUT_FILLING);
        answers[i] = c->kind == LIST ? make_list(i, c) : call_make(&both[i], stores[i], length, c, &(buffers){text, NULL, outs[i], sheet});
    }
    if (!stores_apart) same_bytes(which, "the store", stores, whole);
    same_bytes(which, "the output", outs, c->out_length);
    if (c->text_length > 0 && memcmp(text, c->text, c->text_length) != 0) differ(which, "the text lent", 0, 1);
    if (c->sheet_length > 0 && memcmp(sheet, c->sheet, c->sheet_length) != 0) differ(which, "the sheet lent", 0, 1);
    return same_answer(which, answers);
}

/* the letters and the reading as the accepted calls make them; only arguments are chosen by them */
static void follow(const call *c, uint64_t answer)
{
    int left = c->kind == ADD_LEFT || c->kind == REMOVE_LEFT;
    if ((answer & 0xff) != 0 || c->kind >= LENGTH) return;
    if (c->kind >= TURN_PLAIN) {
        rule = brute_rule(c->kind - TURN_PLAIN);
        return;
    }
    if (c->kind >= REMOVE_LEFT) {
        size--;
        if (left) memmove(letters, letters + 1, size);
        return;
    }
    if (left) memmove(letters + 1, letters, size);
    letters[left ? 0 : size] = (unsigned char)c->number;
    size++;
}

/* ---- arguments */

/* one of the first letters of ATCG, so that two are partners; the partner of the letter at the other end; or none */
static uint64_t some_letter(int left, unsigned alphabet)
{
    static const uint64_t none[] = {'N', 'U', 'a', 0, 255, 'A' + 256, 'C' + (1ull << 32), 'G' + (1ull << 63)};
    unsigned kind = random_below(30);
    if (kind == 0) return none[random_below(sizeof none / sizeof none[0])];
    return kind < 8 && size > 0 ? rule[letters[left ? size - 1 : 0]] : (unsigned char)"ATCG"[random_below(alphabet)];
}

static uint64_t some_number(size_t about)
{
    unsigned kind = random_below(20);
    return kind == 0 ? (1ull << 32) + random_below(4) : kind == 1 ? UINT64_MAX - random_below(3) : random_below((unsigned)about + 3);
}

/* the stretch around a centre as far as it is a repeat, a bit more or less, or any letters; its length */
static size_t some_piece(unsigned char *piece)
{
    size_t from = random_below((unsigned)size + 1), to = from + random_below(2), n;
    while (from > 0 && to < size && letters[from - 1] == rule[letters[to]]) from--, to++;
    if (to > size) to = size;
    if (random_below(3) == 0 && to - from >= 2) from++, to--;
    n = to > from ? to - from : 0;
    memcpy(piece, letters + from, n);
    if (random_below(6) == 0) n = random_below(random_below(4) ? 6 : (unsigned)size + 4);
    if (random_below(6) == 0)
        for (size_t i = 0; i < n; i++) piece[i] = (unsigned char)"ACGT"[random_below(4)];
    for (size_t i = 0; i < n; i++)
        if (!piece[i]) piece[i] = 'A';
    if (n > 0 && random_below(12) == 0) piece[random_below((unsigned)n)] = (unsigned char)random_below(256);
    return n;
}

static size_t some_name(unsigned char *name)
{
    size_t n = random_below(10) ? 1 + random_below(32) : random_below(36);
    for (size_t i = 0; i < n; i++) name[i] = (unsigned char)"azAZ09_e"[random_below(8)];
    if (n > 0 && random_below(10) == 0) name[random_below((unsigned)n)] = (unsigned char)random_below(256);
    return n;
}

/* the record's own list by the first version, nothing where it is refused */
static size_t own_list(unsigned char *lines, const call *c)
{
    static uint8_t scratch[4 * MOST];
    if (left_out[LIST]) return 0;
    uint64_t answer = both[0].list(stores[0], length, c->text, c->text_length, scratch, sizeof scratch, lines, MIRROR_LIST_SIZE(MOST));
    return mirror_refusal(answer) ? 0 : mirror_first(answer);
}

/* a line of the stretch around a centre as far as it is a repeat, a bit more or less, or of any places; now and then one that is none */
static size_t some_line(unsigned char *line, const call *c)
{
    static const char *const forms[] = {"\t%zu\t%zu\n", "\t%zu\t%zu\r\n", "\t0%zu\t%zu\n", "\t%zu\t0%zu\n", "\t%zu\t%zu\t1\n", "\t%zu\t1%04zu\n"};
    size_t from = random_below((unsigned)size + 1), to = from + random_below(2);
    size_t bytes = c->text_length - (c->text_length > 0 && random_below(24) == 0); /* now and then another identifier */
    while (from > 0 && to < size && letters[from - 1] == rule[letters[to]]) from--, to++;
    if (random_below(4) == 0) from += random_below(2), to -= to > 0 && random_below(2);
    if (random_below(12) == 0) from = some_number(size) % 10000, to = some_number(size) % 10000;
    memcpy(line, c->text, bytes);
    if (bytes > 0 && random_below(24) == 0) line[bytes - 1] ^= 'a' - 'A';
    if (random_below(24) == 0) line[bytes++] = '_';
    return bytes + (size_t)sprintf((char *)line + bytes, forms[random_below(48) ? 0 : 1 + random_below(5)], from, to);
}

/* the own list or a few lines, now and then with more lines, and with a byte changed or lost, often one of the last */
static void some_sheet(call *c)
{
    static unsigned char lines[MIRROR_LIST_SIZE(MOST) + 64 * SHEET_LINES];
    size_t n = random_below(3) ? 0 : own_list(lines, c);
    for (unsigned more = n > 0 && random_below(2) ? 0 : random_below(SHEET_LINES); more > 0; more--) n += some_line(lines + n, c);
    size_t at = n > 0 ? n - 1 - random_below(n < 6 || random_below(2) ? (unsigned)n : 6) : 0;
    unsigned slip = random_below(3) ? (unsigned)"\t\n\r09:/ +"[random_below(9)] : random_below(256);
    if (n > 0 && random_below(6) == 0) lines[at] = (unsigned char)slip;
    if (n > 0 && random_below(12) == 0) memmove(lines + at, lines + at + 1, --n - at);
    c->sheet = lines;
    c->sheet_length = n;
}

static call some_call(call_kind kind, unsigned alphabet)
{
    static unsigned char bytes[PIECE];
    call c = {.kind = kind, .text = bytes};
    memset(bytes, 0, sizeof bytes);
    if (kind <= ADD_RIGHT) c.number = some_letter(kind == ADD_LEFT, alphabet);
    if (kind == LETTER) c.number = some_number(size);
    if (kind == ROW || kind == FREQUENCY || kind == SPELL) c.number = some_number(capacity);
    if (kind == SPELL) c.out_length = random_below((unsigned)size + 3);
    if (kind == FIND) c.text_length = some_piece(bytes);
    if (kind == GENBANK) c.out_length = random_below(12) ? MIRROR_GENBANK_SIZE(size) + random_below(3) : random_below((unsigned)MIRROR_GENBANK_SIZE(size));
    if (kind == MINIMAL_UNIQUE) c.out_length = random_below(12) ? MIRROR_MINIMAL_UNIQUE_SIZE(size) + random_below(3) : random_below(2 * (unsigned)size + 1);
    if (kind == PIECES) c.out_length = random_below(12) ? MIRROR_PIECES_SIZE(size) + random_below(3) : random_below((unsigned)size + 1);
    if (kind == MARK) {
        c.text_length = some_name(bytes);
        c.out_length = random_below(12) ? MIRROR_MARKS_SIZE + random_below(3) : random_below(2) * random_below(MIRROR_MARKS_SIZE);
        some_sheet(&c);
    }
    if (kind == LIST) {
        c.text_length = some_name(bytes);
        c.scratch_length = random_below(12) ? 1 + random_below(random_below(6) ? 3 : 4 * (unsigned)size + 1) : 0; /* as make_list counts them */
        c.out_length = random_below(12) ? MIRROR_LIST_SIZE(size) : random_below((unsigned)MIRROR_LIST_SIZE(size) + 1);
    }
    return c;
}

/* what was written again, into as many bytes as it took and into one fewer */
static void tighten(call *c, uint64_t answer)
{
    size_t wrote = call_wrote(c->kind, answer);
    if ((answer & 0xff) != 0 || !call_writes(c->kind)) return;
    c->out_length = wrote;
    make(c);
    if (wrote == 0) return;
    c->out_length = wrote - 1;
    make(c);
}

/* ---- sittings */

static void fill(size_t n)
{
    whole = length = n;
    for (int i = 0; i < 2; i++) stores[i] = guard_room(STORE_SLOT + i, n);
    for (size_t i = 0; i < n; i++) stores[0][i] = stores[1][i] = (uint8_t)random_below(256);
}

/* 1 where the record is open */
static int open_both(unsigned reading, uint64_t wanted)
{
    call c = {.kind = OPEN + reading, .number = wanted};
    if (make(&c) != 0) return 0;
    rule = brute_rule(reading);
    capacity = wanted;
    size = 0;
    return 1;
}

static int without_inverted(void)
{
    return left_out[OPEN_INVERTED] == UINT64_MAX;
}

static unsigned long budget;

/* a store of any bytes, refused openings and an accepted one; then additions and removals at both ends, more of one, then of
 * the other, and between them every question and, now and then, a turn to either reading */
static void sitting(size_t wanted, unsigned alphabet)
{
    unsigned reading = without_inverted() ? PLAIN : random_below(READINGS);
    fill(MIRROR_STORE_SIZE(wanted) + random_below(EXTRA));
    open_both(reading, random_below(2) ? 0 : MOST + 1 + random_below(3));
    open_both(reading, wanted + length / 48);
    length = MIRROR_STORE_SIZE(wanted) - 1;
    open_both(reading, wanted);
    length = whole;
    if (!open_both(reading, wanted)) return;
    unsigned steps = 20 + random_below(6 * (unsigned)wanted + 40), phase = 1 + random_below(2 * (unsigned)wanted + 8);
    for (unsigned i = 0; i < steps && total < budget; i++) {
        int growing = i / phase % 2 == 0 ? random_below(8) != 0 : random_below(8) == 0;
        int asks = random_below(5) < 2;
        call_kind kind = asks ? LENGTH + random_below(CALL_KINDS - LENGTH) : (growing ? ADD_LEFT : REMOVE_LEFT) + random_below(2);
        if (random_below(32) == 0) kind = TURN_PLAIN + random_below(READINGS);
        call c = some_call(kind, alphabet);
        uint64_t answer = make(&c);
        follow(&c, answer);
        tighten(&c, answer);
    }
}

/* ---- damage */

/* a few bytes or cells of the store changed, in both alike */
static void spoil_bytes(void)
{
    size_t used = layout_used(capacity);
    for (unsigned k = 1 + random_below(3); k > 0; k--) {
        size_t at = random_below(4) ? random_below((unsigned)used) : random_below((unsigned)length), from = random_below((unsigned)used);
        stores[0][at] = random_below(2) ? (uint8_t)random_below(256) : stores[0][from];
    }
    if (random_below(16) == 0) length -= 1 + random_below(EXTRA + 2);
}

/* The store of the sitting, which shows s, is damaged in a way of damages.c, or in some bytes where none is given, and gets
 * every call. Where no inverted record is opened one of the two may not know that reading, so a cell that came to name it is
 * made to name none. */
static void spoil(const damage *d, const shown *s, unsigned alphabet)
{
    static uint8_t kept[MIRROR_STORE_SIZE(MOST) + EXTRA], bad[MIRROR_STORE_SIZE(MOST) + EXTRA];
    unsigned long made_before = total;
    memcpy(kept, stores[0], whole);
    if (d == NULL) spoil_bytes();
    else d->make(stores[0], &length, s);
    if (without_inverted() && layout_cell(stores[0], 0, CELL_READING) == INVERTED) layout_put(stores[0], 0, CELL_READING, READINGS);
    memcpy(bad, stores[0], whole);
    for (call_kind kind = ADD_LEFT; kind < CALL_KINDS; kind++) {
        for (int i = 0; i < 2; i++) memcpy(stores[i], bad, whole);
        call c = some_call(kind, alphabet);
        tighten(&c, make(&c));
    }
    damaged_calls += total - made_before;
    length = whole;
    for (int i = 0; i < 2; i++) memcpy(stores[i], kept, whole);
}

static void spoil_somehow(unsigned alphabet)
{
    static shown s;
    int bytes = size > SMALL || random_below(3) == 0 || judge(stores[0], length, &s) != NULL;
    spoil(bytes ? NULL : &damages[random_below((unsigned)damage_kinds)], &s, alphabet);
}

static void spoil_in_every_way(void)
{
    static shown s;
    if (judge(stores[0], length, &s) != NULL) return;
    for (size_t i = 0; i < damage_kinds; i++) spoil(&damages[i], &s, 4);
}

/* ---- structured words */

/* letter i of the Fibonacci word: 0 or 1 */
static size_t fibonacci(size_t i)
{
    while (i > 1) {
        size_t part = 1, longer = 2;
        while (longer <= i) {
            size_t sum = part + longer;
            part = longer;
            longer = sum;
        }
        i -= part;
    }
    return i;
}

/* letter i of a word with about as many repeats as letters; in an inverted record each is followed by its partner */
static unsigned char letter_of(unsigned word, unsigned reading, size_t i)
{
    if (reading == INVERTED) return i % 2 ? rule[letter_of(word, PLAIN, i / 2)] : letter_of(word, PLAIN, i / 2);
    size_t second = word == ALL_A ? 0 : word == PAIRS ? i % 2 : word == FIBONACCI ? fibonacci(i) : (size_t)__builtin_parityl(i);
    return (unsigned char)"AC"[second];
}

/* the lists, the page, the pieces and a sheet, which are the last kinds, each asked once in so many times */
static void ask_written(unsigned often)
{
    for (call_kind kind = LIST; kind < CALL_KINDS; kind++) {
        if (random_below(often) != 0) continue;
        call c = some_call(kind, 4);
        tighten(&c, make(&c));
    }
}

/* all places, and how often the repeats of some rows stand */
static void ask_places(void)
{
    call all = {.kind = OCCURRENCES};
    make(&all);
    for (int i = 0; i < 6; i++) {
        call c = {.kind = FREQUENCY, .number = 2 + random_below((unsigned)capacity)};
        make(&c);
    }
}

/* an addition or a removal at the right (0), at the left (1) or at either end (2), then what stands at both and, now and then, what is
 * written and places */
static void change_at(unsigned ends, call_kind at_left, uint64_t letter)
{
    unsigned right = ends == 2 ? random_below(2) : ends == 0;
    call c = {.kind = at_left + right, .number = letter};
    follow(&c, make(&c));
    for (call_kind kind = LONGEST_LEFT; kind <= LONGEST_RIGHT; kind++) {
        call asked = {.kind = kind};
        make(&asked);
    }
    ask_written(16);
    if (random_below(16) == 0) ask_places();
}

/* a word of n letters joins and is taken away again, and where it is longest it is listed, printed, cut, marked, counted and
 * damaged in every way */
static void word_sitting(size_t n)
{
    unsigned reading = without_inverted() ? PLAIN : random_below(READINGS), word = random_below(WORDS), joined = random_below(3), taken = random_below(3);
    fill(MIRROR_STORE_SIZE(n) + random_below(EXTRA));
    if (!open_both(reading, n)) return;
    for (size_t i = 0; i < n && total < budget; i++) change_at(joined, ADD_LEFT, letter_of(word, reading, i));
    ask_written(1);
    ask_places();
    if (!stores_apart) spoil_in_every_way();
    for (size_t i = 0; i < n && total < budget; i++) change_at(taken, REMOVE_LEFT, 0);
}

/* ---- FASTA texts */

/* a full record and a few bytes that mean something behind it */
static size_t full_text(uint8_t *bytes)
{
    size_t n = 3;
    memcpy(bytes, ">e\n", n);
    while (n < 3 + MOST) bytes[n++] = (uint8_t)"ACGT"[random_below(4)];
    for (unsigned more = random_below(5); more > 0; more--) bytes[n++] = (uint8_t)"ACGT>N\r\n"[random_below(8)];
    return n;
}

static size_t some_text(uint8_t *bytes)
{
    unsigned kind = random_below(20);
    size_t n = kind == 0 ? full_text(bytes) : kind == 1 ? random_below(200) : fasta_good(bytes); /* 1: of what was there */
    for (unsigned slips = kind == 0 ? 0 : random_below(4); slips > 0; slips--) n = fasta_slip(bytes, n);
    return n;
}

static void read_text(void)
{
    static uint8_t bytes[2][FASTA_MOST];
    size_t n = some_text(bytes[0]), room = random_below(3) ? MOST : random_below(MOST + 8);
    uint8_t *texts[2];
    uint64_t answers[2];
    if (left_out[FASTA] == UINT64_MAX) return;
    if (without_small) fasta_capitals(bytes[1], bytes[0], n);
    else memcpy(bytes[1], bytes[0], n);
    for (int i = 0; i < 2; i++) texts[i] = guarded(SCRATCH_SLOT + i, bytes[i], n); /* the reader takes no scratch */
    for (int again = 0; again < 2; again++) {
        for (int i = 0; i < 2; i++) {
            outs[i] = lend(OUT_SLOT + i, room, OUT_FILLING);
            answers[i] = both[i].fasta(texts[i], n, outs[i], room);
        }
        same_bytes(FASTA, "the output", outs, room);
        for (int i = 0; i < 2; i++)
            if (memcmp(texts[i], bytes[i], n) != 0) differ(FASTA, "the text lent", 0, 1);
        uint64_t answer = same_answer(FASTA, answers);
        if ((answer & 0xff) != 0) return;
        room = (answer >> 48) - (answer >> 48 != 0); /* once more with a byte less than it wrote */
    }
}

/* ---- texts of uncertain bases */

/* codes in mixed case, or a few too many, and now and then a byte that may be none */
static void read_codes(void)
{
    static const char none[] = "UuXxEz-@[`{ \n";
    static uint8_t codes[MOST + 8];
    size_t n = random_below(3) ? random_below(40) : random_below(4) ? random_below(MOST) : MOST - 4 + random_below(12);
    uint64_t answers[2];
    if (left_out[UNCERTAIN] == UINT64_MAX) return;
    uncertain_text(random_below((unsigned)uncertain_kinds), codes, n);
    uncertain_cases(codes, n);
    unsigned spoilt = random_below(16);
    if (n > 0 && spoilt < 2) codes[random_below((unsigned)n)] = (uint8_t)(spoilt ? random_below(256) : (unsigned char)none[random_below(sizeof none - 1)]);
    for (int i = 0; i < 2; i++) {
        text = guarded(TEXT_SLOT, codes, n);
        answers[i] = both[i].uncertain(text, n);
        if (n > 0 && memcmp(text, codes, n) != 0) differ(UNCERTAIN, "the text lent", 0, 1);
    }
    same_answer(UNCERTAIN, answers);
}

/* ---- all of it */

static size_t some_capacity(void)
{
    unsigned kind = random_below(100);
    return kind < 30 ? 1 + random_below(6) : kind < 70 ? 1 + random_below(SMALL) : kind < 97 ? 1 + random_below(100) : kind < 99 ? 1 + random_below(MOST) : MOST;
}

static size_t some_word_length(void)
{
    return random_below(8) ? 1 + random_below(64) : random_below(3) ? 1 + random_below(MOST) : MOST;
}

static void run(void)
{
    while (total < budget) {
        unsigned alphabet = 1 + random_below(4);
        guard_at(random_below(2) ? GUARD_BEFORE : GUARD_AFTER);
        sitting(some_capacity(), alphabet);
        for (unsigned i = 0; !stores_apart && i < 6; i++) spoil_somehow(alphabet);
        if (random_below(16) == 0) word_sitting(some_word_length());
        for (unsigned i = 0; i < 20; i++) {
            read_text();
            read_codes();
        }
    }
}

static void leave_out(const char *what)
{
    static const struct { const char *name; uint64_t bits; } fields[] = {{"flag", 0xff00}, {"row", 0xffff0000}, {"first", 0xffffull << 32}, {"second", 0xffffull << 48}};
    char name[32] = "";
    const char *dot = strchr(what, '.');
    uint64_t bits = dot ? 0 : UINT64_MAX;
    snprintf(name, sizeof name, "%.*s", dot ? (int)(dot - what) : 31, what);
    for (size_t i = 0; dot && i < 4; i++)
        if (strcmp(dot + 1, fields[i].name) == 0) bits = fields[i].bits;
    unsigned which = library_call(name);
    if (strcmp(what, "store") == 0) stores_apart = 1;
    else if (strcmp(what, "small") == 0) without_small = 1;
    else if (which != LIBRARY_CALLS && which != OPEN && bits != 0) left_out[which] |= bits;
    else {
        fprintf(stderr, "versions: %s is no call that can be left out, and no field of one\n", what);
        exit(2);
    }
}

/* whether a version lists eight letters with one byte of scratch */
static int takes_a_bit(const library *of)
{
    static uint8_t store[MIRROR_STORE_SIZE(MOST)], scratch[1], out[MIRROR_LIST_SIZE(8)];
    of->open(store, sizeof store, 8);
    for (int i = 0; i < 8; i++) of->add_right(store, sizeof store, 'A');
    return mirror_refusal(of->list(store, sizeof store, (const uint8_t *)"e1", 2, scratch, sizeof scratch, out, sizeof out)) == 0;
}

static void load(char **paths)
{
    unsigned char has[2][LIBRARY_CALLS];
    for (int i = 0; i < 2; i++) library_load(&both[i], paths[i], has[i]);
    for (unsigned c = 0; c < LIBRARY_CALLS; c++) {
        if (has[0][c] && has[1][c]) continue;
        printf("%s is not in both: left out\n", library_names[c]);
        left_out[c] = UINT64_MAX;
    }
    if (left_out[OPEN] || left_out[ADD_RIGHT] || left_out[LENGTH]) {
        fprintf(stderr, "versions: no record can be opened and followed\n");
        exit(2);
    }
    for (int i = 0; i < 2 && !left_out[LIST]; i++) by_the_bit[i] = takes_a_bit(&both[i]);
    if (by_the_bit[0] != by_the_bit[1]) printf("a list takes a bit of scratch for each letter in version %d alone, four bytes in the other\n", 2 - by_the_bit[0]);
}

int main(int argc, char **argv)
{
    if (argc < 5) {
        fprintf(stderr, "usage: versions ONE.so OTHER.so SEED CALLS [LEFT OUT..]\n");
        return 2;
    }
    load(argv + 1);
    for (int i = 5; i < argc; i++) leave_out(argv[i]);
    if (without_inverted()) left_out[TURN_INVERTED] = UINT64_MAX;
    random_seed(argv[3], 0);
    fasta_seed(strtoull(argv[3], NULL, 10));
    budget = strtoul(argv[4], NULL, 10);
    run();
    printf("seed %s:", argv[3]);
    for (unsigned c = 0; c < LIBRARY_CALLS; c++) printf(" %s %lu", library_names[c], compared[c]);
    printf("\n%lu calls gave equal answers and left equal bytes, %lu of them refused, %lu on damaged stores\n", total, refused, damaged_calls);
    return 0;
}

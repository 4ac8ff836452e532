#include "model.h"
#include "guard.h"
#include "layout.h"
#include "mirror.h"
#include "oracle.h"
#include "second_marker.h"
#include "second_page.h"
#include <stdio.h>
#include <stdlib.h>
#include <string.h>

enum { SHORT = 48, MIDDLING = 200, PIECE_SLOT = 0, OUT_SLOT, SCRATCH_SLOT, STORE_SLOT, REMADE_SLOT, SHEET_SLOT };

unsigned long model_sittings, model_calls, model_turns, model_facts, model_falls[READINGS][MODEL_FALLS], model_upward[READINGS];

static const library linked = LIBRARY_OF_THIS_PROGRAM;
static unsigned reading;
static const unsigned char *rule;
static unsigned char letters[MODEL_MOST];
static size_t length, capacity, count;
static size_t largest; /* the longest length that the store answered after the last change */
static size_t by_place; /* all repeats counted by place, followed from change to change */
static struct { size_t length; unsigned char word[MODEL_MOST]; unsigned row; } repeats[MODEL_MOST];
static uint8_t *store;
static size_t store_length;
static uint8_t before[64 * 1024];

size_t model_length(void)
{
    return length;
}

unsigned model_reading(void)
{
    return reading;
}

static void fail(const char *what, unsigned long long wanted, unsigned long long got)
{
    printf("call %lu, %.*s (%s, capacity %zu): %s: wanted %llx, got %llx\n", model_calls, (int)(length < 100 ? length : 100), (char *)letters,
           reading == PLAIN ? "plain" : "inverted", capacity, what, wanted, got);
    exit(1);
}

static void same(const char *what, uint64_t wanted, uint64_t got)
{
    model_facts++;
    if (wanted != got) fail(what, wanted, got);
}

static uint64_t packed(unsigned flag, unsigned row, size_t first, size_t second)
{
    return (uint64_t)flag << 8 | (uint64_t)row << 16 | (uint64_t)first << 32 | (uint64_t)second << 48;
}

/* the two sums of a record's repeats, each of three bytes */
static uint64_t sums(size_t by_rows, size_t by_ends)
{
    return (uint64_t)by_rows << 16 | (uint64_t)by_ends << 40;
}

static void unchanged(const char *what)
{
    model_facts++;
    if (memcmp(store, before, store_length) != 0) fail(what, 0, 1);
}

/* the number of the palindrome in the model, -1 where it does not stand */
static long known(const unsigned char *w, size_t n)
{
    for (size_t i = 0; i < count; i++)
        if (repeats[i].length == n && memcmp(repeats[i].word, w, n) == 0) return (long)i;
    return -1;
}

/* row 1 for the empty word: an end or a link without a repeat */
static unsigned row_of(const unsigned char *w, size_t n)
{
    if (n == 0) return 1;
    long i = known(w, n);
    if (i < 0) fail("a repeat has no row", 0, 0);
    return repeats[i].row;
}

static uint64_t find(const unsigned char *w, size_t n)
{
    return mirror_find(store, store_length, guarded(PIECE_SLOT, w, n), n);
}

/* what find answers for any letters: the row of a repeat that stands, and 0 as its pair, or the pair at which they break */
static void ask_find(const char *what, const unsigned char *w, size_t n)
{
    long i = known(w, n);
    same(what, i < 0 ? packed(0, 0, brute_mismatch(rule, w, n), 0) : packed(1, repeats[i].row, 0, 0), find(w, n));
}

static unsigned char another(unsigned char letter)
{
    return letter == 'A' ? 'C' : letter == 'C' ? 'G' : letter == 'G' ? 'T' : 'A';
}

/* a repeat with the letter at one place changed */
static void ask_near(const unsigned char *w, size_t n, size_t place)
{
    unsigned char near[MODEL_MOST];
    memcpy(near, w, n);
    near[place] = another(near[place]);
    ask_find("find a repeat with one letter changed", near, n);
}

/* whether places are counted in the row, or after the change, of this number: in large stores, where the calls take most of the
 * time, in each eighth */
static int counted(unsigned long which)
{
    return capacity <= MIDDLING || which % 8 == 0;
}

/* how often a row's repeat stands, 0 where it has none: then it is refused */
static void ask_places(const char *what, unsigned row, size_t places)
{
    same(what, places ? packed(0, 0, places, 0) : 7, mirror_frequency(store, store_length, row));
}

/* one repeat: found at its row, with the fields that its letters give, counted at every place, and spelt; how many places */
static size_t ask_repeat(size_t i)
{
    const unsigned char *w = repeats[i].word;
    size_t n = repeats[i].length, link = brute_link(rule, w, n), first, places = brute_places(w, n, letters, length, &first);
    unsigned row = repeats[i].row;
    unsigned link_row = row_of(w + n - link, link);
    unsigned inner_row = n == 1 ? 0 : row_of(w + 1, n - 2);
    uint8_t *out = guard_room(OUT_SLOT, n);

    same("find", packed(1, row, 0, 0), find(w, n));
    ask_near(w, n, (model_calls + i) % n);
    same("row", packed(0, link_row, n, inner_row), mirror_row(store, store_length, row));
    if (counted(model_calls + row)) {
        ask_places("frequency", row, places);
        model_upward[reading] += link_row > row;
    }
    same("spell", packed(0, 0, n, 0), mirror_spell(store, store_length, row, out, n));
    if (memcmp(out, w, n) != 0) fail("spelt bytes", 0, 0);
    memset(out, 7, n);
    same("spell, short", 9, mirror_spell(store, store_length, row, out, n - 1));
    for (size_t k = 0; k < n; k++) same("spell, short: bytes", 7, out[k]);
    out = guard_room(OUT_SLOT, n + 2);
    memset(out, 7, n + 2);
    same("spell with room", packed(0, 0, n, 0), mirror_spell(store, store_length, row, out, n + 2));
    same("spell with room: bytes beyond", 7 + 256 * 7, out[n] + 256u * out[n + 1]);
    return places;
}

/* every row that is no repeat's, and numbers that are no row's */
static void ask_other_rows(void)
{
    static unsigned char taken[MODEL_MOST + 8];
    memset(taken, 0, sizeof taken);
    for (size_t i = 0; i < count; i++) taken[repeats[i].row] = 1;
    for (unsigned r = 2; r < capacity + 5; r++) {
        if (taken[r]) continue;
        same("free row", 7, mirror_row(store, store_length, r));
        if (counted(model_calls + r)) ask_places("frequency of a free row", r, 0);
        same("free row spelt", 7, mirror_spell(store, store_length, r, guard_room(OUT_SLOT, 4), 4));
    }
    same("row 0", packed(0, 0, 65535, 0), mirror_row(store, store_length, 0));
    same("row 1", packed(0, 0, 0, 0), mirror_row(store, store_length, 1));
    same("row 2^32 + 2", 7, mirror_row(store, store_length, (1ull << 32) + 2));
    ask_places("frequency of row 0", 0, 0);
    ask_places("frequency of row 1", 1, 0);
    same("frequency of row 2^32 + 2", 7, mirror_frequency(store, store_length, (1ull << 32) + 2));
    same("frequency of row 2^64 - 1", 7, mirror_frequency(store, store_length, UINT64_MAX));
    same("row 0 spelt", 0, mirror_spell(store, store_length, 0, guard_room(OUT_SLOT, 0), 0));
    same("row 1 spelt", 0, mirror_spell(store, store_length, 1, guard_room(OUT_SLOT, 0), 0));
}

/* pieces longer than the record: the record and its mirror image, which read alike until a letter in the middle is changed, and
 * what lies in and about them */
static void ask_long_pieces(void)
{
    unsigned char piece[2 * MODEL_MOST + 1];
    if (length == 0) return;
    memcpy(piece, letters, length);
    for (size_t i = 0; i < length; i++) piece[2 * length - 1 - i] = rule[letters[i]];
    piece[2 * length] = letters[length - 1];
    same("find the record and its mirror image", 0, find(piece, 2 * length));
    ask_find("find these and a letter more", piece, 2 * length + 1);
    ask_find("find these from the second letter on", piece + 1, 2 * length);
    ask_find("find the record and a letter more", piece, length + 1);
    piece[length] = another(piece[length]);
    same("find the record and its mirror image, changed in the middle", packed(0, 0, length, 0), find(piece, 2 * length));
}

/* pieces that are no repeats: every short stretch of the record, its neighbours, and what find refuses */
static void ask_pieces(void)
{
    unsigned char piece[MODEL_MOST + 1];
    memcpy(piece, letters, length);
    for (size_t at = 0; at < length && at < SHORT; at++)
        for (size_t n = 1; n <= 4 && at + n <= length; n++) {
            piece[at]++;
            same("find, no letter", 4, find(piece + at, n));
            piece[at]--;
            ask_find("find a short piece", piece + at, n);
        }
    if (length > 0) ask_find("find the record", piece, length);
    memset(piece, 'A', length + 1);
    if (length > 0) ask_find("find as many A as letters", piece, length);
    same("find a piece longer than the record", packed(0, 0, reading == PLAIN ? 0 : 1, 0), find(piece, length + 1));
    ask_long_pieces();
    same("find nothing", 8, find(piece, 0));
    same("find N", 4, find((const unsigned char *)"ANA", 3));
    same("find a small letter", 4, find((const unsigned char *)&"acgt"[length % 4], 1));
    same("find a small letter among others", 4, find((const unsigned char *)"AcA", 3));
}

/* the lent buffers around refused lists and accepted ones, with no byte to spare and with some */
static void listed(const char *text, size_t size, const uint8_t *name, size_t name_length)
{
    size_t need = layout_scratch(length);
    uint8_t *out = guard_room(OUT_SLOT, size + 2), *scratch = guard_room(SCRATCH_SLOT, need + 2);
    memset(out, 5, size + 2);
    memset(scratch, 6, need + 2);
    if (size > 0) same("list, output short", 9, mirror_list(store, store_length, name, name_length, scratch, need, out, size - 1));
    if (length > 0) same("list, scratch short", 9, mirror_list(store, store_length, name, name_length, scratch, need - 1, out, size));
    same("list, no identifier", 10, mirror_list(store, store_length, name, 0, scratch, need, out, size));
    same("list, 33 bytes", 10, mirror_list(store, store_length, (const uint8_t *)"abcdefghijklmnopqrstuvwxyz_012345", 33, scratch, need, out, size));
    same("list, a dash", 10, mirror_list(store, store_length, (const uint8_t *)"a-b", 3, scratch, need, out, size));
    for (size_t i = 0; i < size + 2; i++) same("list refused: output", 5, out[i]);
    for (size_t i = 0; i < need + 2; i++) same("list refused: scratch", 6, scratch[i]);
    for (size_t spare = 0; spare <= 2; spare += 2) {
        same("list", packed(0, 0, size, 0), mirror_list(store, store_length, name, name_length, scratch, need + spare, out, size + spare));
        model_facts++;
        if (memcmp(out, text, size) != 0) fail("listed bytes", 0, 0);
        for (size_t i = 0; i < 2; i++) same("list: output beyond", 5, out[size + i]);
        for (size_t i = 0; i < need; i++) same("list: scratch", 0, scratch[i]);
        for (size_t i = 0; i < 2; i++) same("list: scratch beyond", 6, scratch[need + i]);
        memset(out, 5, size);
        memset(scratch, 6, need);
    }
}

typedef uint64_t writing(const uint8_t *, size_t, uint8_t *, size_t);

/* a question that writes bytes: into a byte too few, if there are any, into just these bytes, and with some to spare */
static void ask_written(const char *what, writing *call, uint64_t answer, const uint8_t *bytes, size_t n)
{
    for (size_t room = n - (n > 0); room <= n + 2; room++) {
        uint8_t *out = guard_room(OUT_SLOT, room);
        size_t written = room < n ? 0 : n;
        memset(out, 5, room);
        same(what, room < n ? 9 : answer, call(store, store_length, out, room));
        for (size_t i = 0; i < room; i++) same(what, i < written ? bytes[i] : 5, out[i]); /* nothing beyond, or after a refusal */
    }
}

/* what is marked, and under which identifier */
static struct { const uint8_t *name, *sheet; size_t name_length, sheet_length; } marking;

static uint64_t mark_now(const uint8_t *in, size_t bytes, uint8_t *out, size_t room)
{
    return mirror_mark(in, bytes, marking.name, marking.name_length, marking.sheet, marking.sheet_length, out, room);
}

static void marked(const char *what, const char *sheet, size_t size, second_counts counts, int full)
{
    uint8_t bytes[MARKS_BYTES];
    marking.sheet = guarded(SHEET_SLOT, (const unsigned char *)sheet, size);
    marking.sheet_length = size;
    second_mark_bytes(counts, bytes);
    ask_written(what, mark_now, packed((unsigned)full, 0, 0, 0), bytes, MARKS_BYTES);
}

static size_t put_line(char *sheet, size_t start, size_t end)
{
    return (size_t)sprintf(sheet, "%.*s\t%zu\t%zu\n", (int)marking.name_length, (const char *)marking.name, start, end);
}

/* the repeat once more, where it stands last */
static size_t put_last_place(char *sheet, stretch at)
{
    size_t bytes = at.end - at.start, last = length - bytes;
    while (memcmp(letters + last, letters + at.start, bytes) != 0) last--;
    return put_line(sheet, last, last + bytes);
}

/* The record's own list has full marks. In turn, without the lines before one, with each line again, with a line that is wrong, and with
 * all of these, it has the marks that follow; with a last line that is none it is refused, and so is an identifier that is none. */
static void ask_marks(const stretch *list, size_t n, const char *text, size_t size, const uint8_t *name, size_t name_length)
{
    static char sheet[128 * 1024];
    unsigned turn = model_calls % 4;
    size_t from = n > 0 && turn % 3 == 0 ? model_calls % n : 0, twice = turn & 1 ? n - from : 0, wrong = turn >= 2, written = 0;
    marking.name = name;
    marking.name_length = name_length;
    marked("marks of the record's own list", text, size, (second_counts){n, 0, 0, 0}, 1);
    for (size_t i = from; i < n; i++) {
        written += put_line(sheet + written, list[i].start, list[i].end);
        if (twice) written += put_last_place(sheet + written, list[i]);
    }
    if (wrong) written += put_line(sheet + written, length, length + 1);
    marked("marks of another sheet", sheet, written, (second_counts){n - from, twice, wrong, from}, from + twice + wrong == 0);
    written += put_line(sheet + written, 0, 1);
    marking.sheet = guarded(SHEET_SLOT, (const unsigned char *)sheet, written - 1);
    marking.sheet_length = written - 1;
    ask_written("marks of a line without its end", mark_now, 13, NULL, 0);
    marking.name_length = 0;
    ask_written("marks without an identifier", mark_now, 10, NULL, 0);
}

static void ask_list(void)
{
    static stretch list[MODEL_MOST];
    static char text[64 * 1024];
    char name[64];
    size_t n = brute_list(rule, letters, length, list), size = 0;
    size_t name_length = (size_t)sprintf(name, "rec_%zu_%.*s", n, n % 2 ? 24 : 1, "abcdefghijklmnopqrstuvwxyz");
    if (name_length > 32) name_length = 32;
    if (n != count) fail("how many repeats stand", n, count);
    for (size_t i = 0; i < n; i++) {
        if (known(letters + list[i].start, list[i].end - list[i].start) < 0) fail("a repeat came in unseen", i, 0);
        size += (size_t)sprintf(text + size, "%.*s\t%zu\t%zu\n", (int)name_length, name, list[i].start, list[i].end);
    }
    uint8_t *lent = guarded(PIECE_SLOT, (unsigned char *)name, name_length);
    listed(text, size, lent, name_length);
    ask_marks(list, n, text, size, lent, name_length);
}

static void ask_page(void)
{
    static char page[SECOND_PAGE_ROOM];
    size_t n = second_page(letters, length, page);
    ask_written("page", mirror_genbank, packed(0, 0, n, 0), (uint8_t *)page, n);
}

static void ask_minimal_unique(void)
{
    static stretch list[MODEL_MOST];
    static uint8_t bytes[STRETCH_BYTES * MODEL_MOST];
    size_t n = brute_minimal_unique(rule, letters, length, list);
    for (size_t i = 0; i < n; i++) layout_stretch(bytes, i, list[i].start, list[i].end);
    ask_written("minimal unique", mirror_minimal_unique, packed(0, 0, n, 0), bytes, STRETCH_BYTES * n);
}

/* the fewest pieces of a plain record; an inverted one is refused before the room is looked at */
static void ask_cutting(void)
{
    static size_t ends[MODEL_MOST];
    static uint8_t bytes[PIECE_BYTES * MODEL_MOST];
    size_t n = reading == PLAIN ? brute_pieces(letters, length, ends) : 0;
    ask_written("fewest pieces", mirror_pieces, reading == PLAIN ? packed(0, 0, n, 0) : 14, bytes, layout_pieces(bytes, ends, n));
}

/* the longest at an end: its row, whether it stands once only, and how often; where there is none row 1, which has no places */
static void ask_end(const char *what, const unsigned char *w, size_t n, uint64_t answer)
{
    size_t first, places = brute_places(w, n, letters, length, &first);
    unsigned row = row_of(w, n);
    same(what, packed(places == 1, row, 0, 0), answer);
    if (counted(model_calls)) ask_places("how often the longest at an end stands", row, n > 0 ? places : 0);
}

static void ask_ends(void)
{
    size_t n = brute_left(rule, letters, length), m = brute_right(rule, letters, length);
    uint64_t left = mirror_longest_left(store, store_length), right = mirror_longest_right(store, store_length);
    if (length == 0) {
        same("longest at the left", 6, left);
        same("longest at the right", 6, right);
        return;
    }
    ask_end("longest at the left", letters, n, left);
    ask_end("longest at the right", letters + length - m, m, right);
}

/* after a change: all that stand, as those that came and went with the letters make them */
static void stand(void)
{
    if (counted(model_calls)) same("occurrences after a change", sums(by_place, by_place), mirror_occurrences(store, store_length));
}

/* What the store carries: as many repeats of each length as stand, together as many as are counted, and the largest of these
 * lengths, which is what it answers. */
static void carries(void)
{
    unsigned of_length[MODEL_MOST + 1] = {0};
    size_t sum = 0, longest = 0;
    for (size_t i = 0; i < count; i++) {
        of_length[repeats[i].length]++;
        if (repeats[i].length > longest) longest = repeats[i].length;
    }
    for (size_t k = 1; k <= capacity; k++) {
        unsigned carried = layout_cell(store, k + 1, CELL_CARRIED);
        if (carried != of_length[k]) fail("how many repeats of a length are carried", of_length[k], carried);
        sum += carried;
    }
    same("all that are carried", layout_cell(store, 0, CELL_COUNT), sum);
    same("the largest length carried", longest, layout_cell(store, 1, CELL_LARGEST));
    uint64_t answer = mirror_longest_length(store, store_length);
    same("longest length", packed(0, 0, longest, 0), answer);
    largest = mirror_first(answer);
}

void model_ask(void)
{
    stretch longest = brute_longest(rule, letters, length);
    size_t by_rows = 0;
    memcpy(before, store, store_length);
    same("length", packed(0, 0, length, 0), mirror_length(store, store_length));
    same("count", packed(0, 0, count, 0), mirror_count(store, store_length));
    same("longest", length ? packed(0, 0, longest.end - longest.start, longest.start) : 6, mirror_longest(store, store_length));
    same("longest length", packed(0, 0, longest.end - longest.start, 0), mirror_longest_length(store, store_length));
    ask_ends();
    for (size_t i = 0; i < length; i++) same("letter", packed(0, 0, letters[i], 0), mirror_letter(store, store_length, i));
    same("letter past the end", 7, mirror_letter(store, store_length, length));
    same("letter far past the end", 7, mirror_letter(store, store_length, 1ull << 32));
    for (size_t i = 0; i < count; i++) by_rows += ask_repeat(i);
    same("occurrences", sums(by_rows, brute_by_ends(rule, letters, length)), mirror_occurrences(store, store_length));
    ask_other_rows();
    ask_pieces();
    ask_list();
    ask_page();
    ask_minimal_unique();
    ask_cutting();
    unchanged("a question changed the store");
}

/* a change through the oracle while the record is short, and now and then later on */
static uint64_t change(call_kind kind, uint64_t letter)
{
    call c = {.kind = kind, .number = letter};
    memcpy(before, store, store_length);
    model_calls++;
    if (length <= SHORT || model_calls % (length < MIDDLING ? 16 : 256) == 0) return oracle(store, store_length, &c);
    return call_make(&linked, store, store_length, &c, &(buffers){0});
}

static void join(int left, uint64_t letter)
{
    if (left) memmove(letters + 1, letters, length);
    letters[left ? 0 : length] = (unsigned char)letter;
    length++;
}

static void part(int left)
{
    length--;
    if (left) memmove(letters, letters + 1, length);
}

static void bring_in(const unsigned char *w, size_t n, unsigned row)
{
    if (row < 2 || row > capacity + 1) fail("a row outside 2 to capacity + 1", 0, row);
    for (size_t i = 0; i < count; i++)
        if (repeats[i].row == row) fail("a new repeat got a row that is taken", i, row);
    memcpy(repeats[count].word, w, n);
    repeats[count].length = n;
    repeats[count++].row = row;
}

void model_add(int left, uint64_t letter, int undo)
{
    uint64_t got = change(left ? ADD_LEFT : ADD_RIGHT, letter);
    int valid = letter == 'A' || letter == 'C' || letter == 'G' || letter == 'T';
    if (!valid || length == capacity) {
        same("refused addition", valid ? 5 : 4, got);
        unchanged("a refused addition changed the store");
        return;
    }
    size_t steps = left || reading != PLAIN ? 0 : brute_steps(rule, letters, length, (unsigned char)letter);
    join(left, letter);
    size_t n = left ? brute_left(rule, letters, length) : brute_right(rule, letters, length);
    const unsigned char *w = left ? letters : letters + length - n;
    unsigned fresh = n > 0 && known(w, n) < 0, row = fresh ? mirror_row_of(got) : 0;
    same("addition", packed(fresh, row, steps, 0), got);
    size_t raised = fresh && n > largest ? n : largest; /* to the new repeat's length, or not at all */
    if (undo) {
        same("longest length, before the addition is undone", packed(0, 0, raised, 0), mirror_longest_length(store, store_length));
        uint64_t back = left ? mirror_remove_left(store, store_length) : mirror_remove_right(store, store_length);
        same("addition undone", packed(fresh, row, letter, 0), back);
        unchanged("an addition undone at once left other bytes");
        part(left);
        return;
    }
    if (fresh) bring_in(w, n, row);
    carries();
    same("longest length after an addition", raised, largest);
    by_place += left ? brute_prefixes(rule, letters, length) : brute_suffixes(rule, letters, length);
    stand();
    ask_ends();
}

/* a removal lowers the longest length by 0, 1 or 2, and in an inverted record, where each length is even, not by 1 */
static void lowered(void)
{
    size_t was = largest;
    carries();
    if (largest > was || was - largest >= MODEL_FALLS) fail("longest length after a removal", was, largest);
    if (reading == INVERTED && was - largest == 1) fail("longest length of an inverted record after a removal", was, largest);
    model_falls[reading][was - largest]++;
}

void model_remove(int left)
{
    unsigned char word[MODEL_MOST];
    uint64_t got = change(left ? REMOVE_LEFT : REMOVE_RIGHT, 0);
    if (length == 0) {
        same("removal from nothing", 6, got);
        unchanged("a refused removal changed the store");
        return;
    }
    size_t n = left ? brute_left(rule, letters, length) : brute_right(rule, letters, length);
    unsigned letter = letters[left ? 0 : length - 1];
    memcpy(word, left ? letters : letters + length - n, n);
    long i = known(word, n);
    if (n > 0 && i < 0) fail("the longest repeat at the end has no row", 0, n);
    by_place -= left ? brute_prefixes(rule, letters, length) : brute_suffixes(rule, letters, length);
    part(left);
    unsigned gone = n > 0 && brute_first(word, n, letters, length) > length;
    same("removal", packed(gone, gone ? repeats[i].row : 0, letter, 0), got);
    if (gone) repeats[i] = repeats[--count];
    lowered();
    stand();
    ask_ends();
}

/* the store as it was before a turn, opened in the reading in force, with the letters added at the right: the same bytes */
static void remade(void)
{
    uint8_t *other = guarded(REMADE_SLOT, before, store_length);
    same("opening anew", 0, (reading == PLAIN ? mirror_open : mirror_open_inverted)(other, store_length, capacity));
    for (size_t i = 0; i < length; i++) same("a letter again", 0, mirror_refusal(mirror_add_right(other, store_length, letters[i])));
    model_facts++;
    if (memcmp(store, other, store_length) != 0) fail("a turn left other bytes than opening and adding", 0, 1);
}

void model_turn(unsigned to)
{
    static stretch list[MODEL_MOST];
    same("turn", 0, change(TURN_PLAIN + to, 0));
    if (to == reading) {
        unchanged("a turn to the reading in force changed the store");
        return;
    }
    model_turns++;
    reading = to;
    rule = brute_rule(reading);
    /* two letters that face each other agree in one reading at most, so what read alike before breaks at its first pair */
    for (size_t i = 0; i < count; i++) same("find what was a repeat", packed(0, 0, 1, 0), find(repeats[i].word, repeats[i].length));
    count = 0;
    size_t n = brute_list(rule, letters, length, list);
    for (size_t i = 0; i < n; i++) {
        const unsigned char *w = letters + list[i].start;
        uint64_t found = find(w, list[i].end - list[i].start);
        same("find after a turn", packed(1, mirror_row_of(found), 0, 0), found);
        bring_in(w, list[i].end - list[i].start, mirror_row_of(found));
    }
    by_place = brute_by_ends(rule, letters, length);
    carries();
    stand();
    remade();
}

void model_open(unsigned wanted_reading, size_t wanted, size_t extra)
{
    model_sittings++;
    reading = wanted_reading;
    rule = brute_rule(reading);
    capacity = wanted;
    length = count = by_place = 0;
    store_length = MIRROR_STORE_SIZE(capacity) + extra;
    store = guard_room(STORE_SLOT, store_length);
    for (size_t i = 0; i < store_length; i++) store[i] = (uint8_t)(i * 7 + wanted);
    memcpy(before, store, store_length);
    same("capacity 0", 1, oracle_open(store, store_length, reading, 0));
    same("capacity 1,025", 1, oracle_open(store, store_length, reading, 1025));
    same("capacity 2^32 + 1", 1, oracle_open(store, store_length, reading, (1ull << 32) + 1));
    same("store too short", 2, oracle_open(store, MIRROR_STORE_SIZE(capacity) - 1, reading, capacity));
    same("capacity before length", 1, oracle_open(store, 0, reading, 0));
    unchanged("a refused opening changed the store");
    same("opening", 0, oracle_open(store, store_length, reading, capacity));
    carries();
    stand();
}

#include "oracle.h"
#include "guard.h"
#include "judge.h"
#include "mirror.h"
#include "second_marker.h"
#include "second_page.h"
#include <stdio.h>
#include <stdlib.h>
#include <string.h>

enum { LENT = 100 * 1024, TEXT_SLOT = 0, OUT_SLOT, SCRATCH_SLOT, SHEET_SLOT = 5 }; /* the others are those of the programs that ask */

unsigned long oracle_calls;

static shown was, is;
static const char *verdict;
static uint8_t before[LENT];
static const library linked = LIBRARY_OF_THIS_PROGRAM;
static buffers lent;
static uint8_t wanted_out[64 * 1024];

const char *oracle_verdict(void)
{
    return verdict;
}

static void fail(const call *c, const char *what, uint64_t wanted, uint64_t got, size_t length)
{
    printf("%s %llu, store of %zu bytes (%s): %s: wanted %llx, got %llx\nstore before:", library_names[c->kind], (unsigned long long)c->number, length,
           verdict ? verdict : "good", what, (unsigned long long)wanted, (unsigned long long)got);
    for (size_t i = 0; i < length && i < 2000; i++) printf(" %02x", before[i]);
    printf("\n");
    abort();
}

static uint64_t packed(unsigned flag, unsigned row, size_t first, size_t second)
{
    return (uint64_t)flag << 8 | (uint64_t)row << 16 | (uint64_t)first << 32 | (uint64_t)second << 48;
}

static int letter(uint64_t c)
{
    return c == 'A' || c == 'C' || c == 'G' || c == 'T';
}

/* Where an end has no repeat its longest is the empty word, which stands everywhere: it is never new, never goes, and does
 * not stand once only. */

/* the answer of a removal, and of an addition but for the number of its new row */
static uint64_t change_answer(const call *c)
{
    int left = c->kind == ADD_LEFT || c->kind == REMOVE_LEFT;
    unsigned char w[LAYOUT_MOST + 1];
    size_t n = was.size, first;
    if (c->kind == ADD_LEFT || c->kind == ADD_RIGHT) {
        if (!letter(c->number)) return 4;
        if (n == was.capacity) return 5;
        memcpy(w + left, was.letters, n);
        w[left ? 0 : n] = (unsigned char)c->number;
        size_t m = left ? brute_left(was.rule, w, n + 1) : brute_right(was.rule, w, n + 1);
        size_t steps = left || was.reading != PLAIN ? 0 : brute_steps(was.rule, was.letters, n, (unsigned char)c->number);
        return packed(brute_places(left ? w : w + n + 1 - m, m, was.letters, n, &first) == 0, 0, steps, 0);
    }
    if (n == 0) return 6;
    size_t m = left ? brute_left(was.rule, was.letters, n) : brute_right(was.rule, was.letters, n);
    const unsigned char *longest = left ? was.letters : was.letters + n - m;
    unsigned gone = brute_places(longest, m, was.letters + left, n - 1, &first) == 0;
    return packed(gone, gone ? judge_row(&was, longest, m) : 0, was.letters[left ? 0 : n - 1], 0);
}

/* the longest repeat's length alone is 0 where there is none, and never refused for it */
static uint64_t longest_answer(const call *c)
{
    stretch at = brute_longest(was.rule, was.letters, was.size);
    if (c->kind == LONGEST_LENGTH) return packed(0, 0, at.end - at.start, 0);
    return was.size ? packed(0, 0, at.end - at.start, at.start) : 6;
}

static uint64_t end_answer(int left)
{
    if (was.size == 0) return 6;
    size_t m = left ? brute_left(was.rule, was.letters, was.size) : brute_right(was.rule, was.letters, was.size), first;
    const unsigned char *w = left ? was.letters : was.letters + was.size - m;
    return packed(brute_places(w, m, was.letters, was.size, &first) == 1, judge_row(&was, w, m), 0, 0);
}

static uint64_t row_answer(const call *c)
{
    if (c->number > was.capacity + 1 || !was.used[c->number]) return 7;
    if (c->number < 2) return c->kind == SPELL ? 0 : packed(0, 0, c->number == 0 ? 65535 : 0, 0);
    stretch at = was.rows[c->number];
    size_t n = at.end - at.start, link = brute_link(was.rule, was.letters + at.start, n);
    if (c->kind == SPELL) {
        if (c->out_length < n) return 9;
        memcpy(wanted_out, was.letters + at.start, n);
        return packed(0, 0, n, 0);
    }
    unsigned inner = n == 1 ? 0 : judge_row(&was, was.letters + at.start + 1, n - 2);
    return packed(0, judge_row(&was, was.letters + at.end - link, link), n, inner);
}

/* a row without a repeat is refused, the two roots among them */
static uint64_t frequency_answer(const call *c)
{
    if (c->number < 2 || c->number > was.capacity + 1 || !was.used[c->number]) return 7;
    stretch at = was.rows[c->number];
    size_t first;
    return packed(0, 0, brute_places(was.letters + at.start, at.end - at.start, was.letters, was.size, &first), 0);
}

/* two sums of three bytes each, above the refusal number and a byte that is 0 */
static uint64_t occurrences_answer(void)
{
    uint64_t by_rows = brute_by_words(was.rule, was.letters, was.size), by_ends = brute_by_ends(was.rule, was.letters, was.size);
    return by_rows << 16 | by_ends << 40;
}

static uint64_t find_answer(const call *c)
{
    if (c->text_length == 0) return 8;
    for (size_t i = 0; i < c->text_length; i++)
        if (!letter(c->text[i])) return 4;
    unsigned row = c->text_length > was.size ? 0 : judge_row(&was, c->text, c->text_length);
    size_t pair = brute_mismatch(was.rule, c->text, c->text_length);
    return packed(row != 0, row, pair < 65535 ? pair : 65535, 0);
}

/* whether the text is an identifier */
static int identifies(const call *c)
{
    if (c->text_length < 1 || c->text_length > 32) return 0;
    for (size_t i = 0; i < c->text_length; i++) {
        unsigned char x = c->text[i];
        if (!(x == '_' || (x >= '0' && x <= '9') || (x >= 'A' && x <= 'Z') || (x >= 'a' && x <= 'z'))) return 0;
    }
    return 1;
}

static uint64_t list_answer(const call *c)
{
    static stretch list[LAYOUT_MOST];
    if (!identifies(c)) return 10;
    size_t n = brute_list(was.rule, was.letters, was.size, list), size = 0;
    for (size_t i = 0; i < n; i++)
        size += (size_t)sprintf((char *)wanted_out + size, "%.*s\t%zu\t%zu\n", (int)c->text_length, (const char *)c->text, list[i].start, list[i].end);
    if (c->out_length < size || c->scratch_length < layout_scratch(was.size)) return 9;
    return packed(0, 0, size, 0);
}

/* so many bytes take just as much room, and nothing else is asked of the buffer */
static uint64_t written_answer(const call *c, size_t first, size_t bytes)
{
    return c->out_length < bytes ? 9 : packed(0, 0, first, 0);
}

static uint64_t page_answer(const call *c)
{
    size_t size = second_page(was.letters, was.size, (char *)wanted_out);
    return written_answer(c, size, size);
}

/* as many as there are is answered, and each takes its bytes */
static uint64_t minimal_unique_answer(const call *c)
{
    static stretch list[LAYOUT_MOST];
    size_t n = brute_minimal_unique(was.rule, was.letters, was.size, list);
    for (size_t i = 0; i < n; i++) layout_stretch(wanted_out, i, list[i].start, list[i].end);
    return written_answer(c, n, STRETCH_BYTES * n);
}

/* an inverted record is not cut, whatever the room */
static uint64_t pieces_answer(const call *c)
{
    static size_t ends[LAYOUT_MOST];
    if (was.reading != PLAIN) return 14;
    size_t n = brute_pieces(was.letters, was.size, ends);
    return written_answer(c, n, layout_pieces(wanted_out, ends, n));
}

/* the sheet is read before the size of the mark sheet is looked at */
static uint64_t mark_answer(const call *c)
{
    if (!identifies(c)) return 10;
    if (!second_is_sheet(c->sheet, c->sheet_length)) return 13;
    if (c->out_length < MARKS_BYTES) return 9;
    second_mark_bytes(second_marks(was.rule, was.letters, was.size, c->text, c->text_length, c->sheet, c->sheet_length), wanted_out);
    return packed((unsigned)second_full(was.rule, was.letters, was.size, c->text, c->text_length, c->sheet, c->sheet_length), 0, 0, 0);
}

static uint64_t wanted_answer(const call *c)
{
    if (verdict) return 3;
    switch (c->kind) {
    case TURN_PLAIN: case TURN_INVERTED: return 0;
    case LENGTH: return packed(0, 0, was.size, 0);
    case COUNT: return packed(0, 0, was.count, 0);
    case LONGEST: case LONGEST_LENGTH: return longest_answer(c);
    case LONGEST_LEFT: return end_answer(1);
    case LONGEST_RIGHT: return end_answer(0);
    case LETTER: return c->number < was.size ? packed(0, 0, was.letters[c->number], 0) : 7;
    case ROW: case SPELL: return row_answer(c);
    case FREQUENCY: return frequency_answer(c);
    case OCCURRENCES: return occurrences_answer();
    case FIND: return find_answer(c);
    case LIST: return list_answer(c);
    case GENBANK: return page_answer(c);
    case MINIMAL_UNIQUE: return minimal_unique_answer(c);
    case PIECES: return pieces_answer(c);
    case MARK: return mark_answer(c);
    default: return change_answer(c);
    }
}

/* the lent buffers: what must be written is, and every other byte is as it was lent */
static void check_buffers(const call *c, size_t length, uint64_t answer)
{
    int done = (answer & 0xff) == 0;
    size_t written = done ? call_wrote(c->kind, answer) : 0;
    size_t cleared = done && c->kind == LIST ? layout_scratch(was.size) : 0;
    if (c->text_length && memcmp(lent.text, c->text, c->text_length) != 0) fail(c, "the piece or identifier changed", 0, 1, length);
    if (c->sheet_length && memcmp(lent.sheet, c->sheet, c->sheet_length) != 0) fail(c, "the sheet changed", 0, 1, length);
    for (size_t i = 0; i < c->out_length; i++) {
        uint8_t wanted = i < written ? wanted_out[i] : 0x5a;
        if (lent.out[i] != wanted) fail(c, "output byte", wanted, lent.out[i], length);
    }
    for (size_t i = 0; i < c->scratch_length; i++)
        if (lent.scratch[i] != (i < cleared ? 0 : 0xa5)) fail(c, "scratch byte", i < cleared ? 0 : 0xa5, lent.scratch[i], length);
}

static void check_beyond(const uint8_t *store, size_t length, const call *c, size_t capacity)
{
    size_t used = layout_used(capacity);
    if (memcmp(before + used, store + used, length - used) != 0) fail(c, "bytes beyond those used", 0, 1, length);
}

/* the order after an addition or a removal: an addition leaves it, a row that goes changes places with the last row in use */
static void check_order(const uint8_t *store, size_t length, const call *c, unsigned gone)
{
    size_t last = was.count - 1, place = gone ? layout_cell(before, gone, CELL_RANK) : 0;
    for (size_t i = 0; i < was.capacity; i++) {
        size_t from = !gone ? i : i == place ? last : i == last ? place : i;
        unsigned wanted = layout_cell(before, from + 2, CELL_ORDER), got = layout_cell(store, i + 2, CELL_ORDER);
        if (wanted != got) fail(c, "the order of rows", wanted, got, length);
    }
    for (size_t r = 1; r < was.capacity + 2; r++) {
        unsigned kept = layout_cell(before, r, CELL_UNUSED), got = layout_cell(store, r, CELL_UNUSED);
        if (kept != got) fail(c, "a cell that is not used", kept, got, length);
    }
    check_beyond(store, length, c, was.capacity);
}

/* the letters after an addition or a removal, and that every palindrome that stays keeps its row */
static void check_change(const uint8_t *store, size_t length, const call *c, uint64_t answer)
{
    int left = c->kind == ADD_LEFT || c->kind == REMOVE_LEFT, adds = c->kind == ADD_LEFT || c->kind == ADD_RIGHT;
    const shown *longer = adds ? &is : &was, *shorter = adds ? &was : &is;
    const char *wrong = judge(store, length, &is);
    unsigned row = answer >> 16 & 0xffff;
    if (wrong) fail(c, wrong, 0, 1, length);
    if (is.reading != was.reading) fail(c, "the reading", was.reading, is.reading, length);
    if (is.capacity != was.capacity || longer->size != shorter->size + 1) fail(c, "how many letters", was.size, is.size, length);
    if (memcmp(longer->letters + left, shorter->letters, shorter->size) != 0) fail(c, "the letters that stay", 0, 1, length);
    if (adds && is.letters[left ? 0 : was.size] != c->number) fail(c, "the letter added", c->number, 0, length);
    for (unsigned r = 2; r < is.capacity + 2; r++) {
        if (r == row && longer->used[r] && !shorter->used[r]) continue;
        if (was.used[r] != is.used[r]) fail(c, "a row came or went", row, r, length);
        if (!was.used[r]) continue;
        size_t n = was.rows[r].end - was.rows[r].start, m = is.rows[r].end - is.rows[r].start;
        if (n != m || memcmp(was.letters + was.rows[r].start, is.letters + is.rows[r].start, n) != 0) fail(c, "a row changed its palindrome", n, r, length);
    }
    check_order(store, length, c, adds ? 0 : row);
}

static void lend(const call *c)
{
    lent.text = guarded(TEXT_SLOT, c->text, c->text_length);
    lent.sheet = guarded(SHEET_SLOT, c->sheet, c->sheet_length);
    lent.out = guard_room(OUT_SLOT, c->out_length);
    lent.scratch = guard_room(SCRATCH_SLOT, c->scratch_length);
    memset(lent.out, 0x5a, c->out_length);
    memset(lent.scratch, 0xa5, c->scratch_length);
}

/* a store that was made anew: good, of this capacity, with so many letters and read so, its rows listed from 2 on, the cells
 * that are not used cleared, the bytes beyond as they were */
static void check_anew(const uint8_t *store, size_t length, const call *c, size_t capacity, size_t size, unsigned reading)
{
    const char *wrong = judge(store, length, &is);
    if (wrong) fail(c, wrong, 0, 1, length);
    if (is.capacity != capacity) fail(c, "the capacity", capacity, is.capacity, length);
    if (is.size != size) fail(c, "how many letters", size, is.size, length);
    if (is.reading != reading) fail(c, "the reading", reading, is.reading, length);
    for (unsigned r = 1; r < capacity + 2; r++) {
        unsigned listed = r < 2 ? r : layout_cell(store, r, CELL_ORDER);
        if (listed != r) fail(c, "the order of rows", r, listed, length);
        unsigned got = layout_cell(store, r, CELL_UNUSED);
        if (got != 0) fail(c, "a cell that is not used", 0, got, length);
    }
    check_beyond(store, length, c, capacity);
}

/* A record turned to the other reading: its letters, and the rows of a record that was opened in that reading and got them at
 * the right. So the repeats have the rows from 2 on, in the order in which they first end. */
static void check_turned(const uint8_t *store, size_t length, const call *c)
{
    static stretch list[LAYOUT_MOST];
    check_anew(store, length, c, was.capacity, was.size, c->kind - TURN_PLAIN);
    if (memcmp(is.letters, was.letters, was.size) != 0) fail(c, "the letters", 0, 1, length);
    size_t n = brute_list(is.rule, was.letters, was.size, list);
    for (unsigned i = 0; i < n; i++) {
        unsigned row = judge_row(&is, was.letters + list[i].start, list[i].end - list[i].start);
        if (row != i + 2) fail(c, "a repeat's row", i + 2, row, length);
    }
}

uint64_t oracle_open(uint8_t *store, size_t length, unsigned reading, uint64_t capacity)
{
    uint64_t wanted = capacity < 1 || capacity > LAYOUT_MOST ? 1 : length < layout_size(capacity) ? 2 : 0;
    call c = {.kind = OPEN + reading, .number = capacity};
    memcpy(before, store, length);
    uint64_t got = call_make(&linked, store, length, &c, &lent);
    oracle_calls++;
    verdict = NULL;
    if (wanted != got) fail(&c, "answer", wanted, got, length);
    if (got != 0 && memcmp(store, before, length) != 0) fail(&c, "the store changed", 0, 1, length);
    if (got == 0) check_anew(store, length, &c, capacity, 0, reading);
    return got;
}

uint64_t oracle(uint8_t *store, size_t length, const call *c)
{
    verdict = judge(store, length, &was);
    memcpy(before, store, length);
    lend(c);
    uint64_t wanted = wanted_answer(c), got = call_make(&linked, store, length, c, &lent);
    int turns = c->kind == TURN_PLAIN || c->kind == TURN_INVERTED;
    /* what is accepted and no question; but a turn to the reading in force must leave every byte */
    int changes = c->kind < LENGTH && (wanted & 0xff) == 0 && c->kind != TURN_PLAIN + was.reading;
    oracle_calls++;
    if (changes && c->kind <= ADD_RIGHT && mirror_flag(wanted)) wanted |= (uint64_t)layout_cell(before, was.count + 2, CELL_ORDER) << 16;
    if (wanted != got) fail(c, "answer", wanted, got, length);
    if (!changes && memcmp(store, before, length) != 0) fail(c, "the store changed", 0, 1, length);
    if (changes && turns) check_turned(store, length, c);
    if (changes && !turns) check_change(store, length, c, got);
    check_buffers(c, length, got);
    return got;
}

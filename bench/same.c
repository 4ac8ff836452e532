/* Whether the twin does the library's work: a benchmark of two programs that answer differently is worthless.
 *
 * Every call on every word in either reading, pieces to find that are repeats, nearly are, read alike and are absent or are
 * longer than the record, frequencies of every row and of numbers that are none, lists with scratch about the need, pages,
 * minimal unique palindromes and the fewest pieces with room about the need, long random sittings from both ends, some with turns,
 * full records of every word taken away letter by letter and their lists marked, and damaged stores, in some of which a carried number
 * alone is untrue, go through both, and every answer and every lent byte must agree. Prints how many calls were compared, and ends
 * with 1 at the first difference. Other sheets are for same_marking.c. */
#include <stdio.h>
#include <stdlib.h>
#include <string.h>

#include "calls.h"
#include "twin.h"
#include "words.h"

enum { STEPS = 6000, BETWEEN_TURNS = 50, BETWEEN_SHEETS = 70, LONG_PIECE = 2 * 65540, OUT_PAINT = 0x5a };

static struct sitting here, there;
static unsigned long compared, refused;

/* Runs a call of the library on `here` and of the twin on `there`, both equal before. */
static uint64_t compare(const struct call *call, const char *where)
{
    uint64_t ours = call->library(&here), theirs = call->twin(&there);
    compared++;
    if (ours == theirs && memcmp(&here, &there, sizeof here) == 0)
        return ours;
    printf("bench/same: %s differs, %s: %016llx against %016llx\n", call->name, where, (unsigned long long)ours,
           (unsigned long long)theirs);
    exit(1);
}

static void compare_all(const struct sitting *s, const char *where)
{
    for (int i = 0; i < PAIRS; i++) {
        here = there = *s;
        compare(&calls[i], where);
    }
}

/* Both turns, one after the other: a store that is refused must stay as it is, and any other is turned at least once. */
static void compare_turns(const char *where)
{
    for (int reading = PLAIN; reading <= INVERTED; reading++)
        compare(&calls[CALL_TURN_PLAIN + reading], where);
}

/* The longest at either end. */
static void compare_ends(const char *where)
{
    compare(&calls[CALL_LONGEST_LEFT], where);
    compare(&calls[CALL_LONGEST_RIGHT], where);
}

/* How often two rows' palindromes stand, and all of them. */
static void compare_counts(const char *where)
{
    for (int i = CALL_FREQUENCY; i <= CALL_OCCURRENCES; i++)
        compare(&calls[i], where);
}

/* The list, with scratch that is not clear. */
static void compare_list(const char *where)
{
    memset(here.scratch, SCRATCH_PAINT, sizeof here.scratch);
    memset(there.scratch, SCRATCH_PAINT, sizeof there.scratch);
    compare(&calls[CALL_LIST], where);
}

/* On a store that may be damaged: questions, which show whether it is refused, then removals and the turns. */
static void compare_damaged(const char *where)
{
    refused += compare(&calls[CALL_LENGTH], where) == 3;
    compare(&calls[CALL_LONGEST_LENGTH], where);
    compare_ends(where);
    compare_counts(where);
    for (int i = CALL_GENBANK; i <= CALL_MARK; i++)
        compare(&calls[i], where);
    compare(&calls[CALL_REMOVE_LEFT], where);
    compare(&calls[CALL_REMOVE_RIGHT], where);
    compare_turns(where);
}

/* How many bytes a call that writes has written, by its answer: a minimal unique palindrome takes four, and the end of a piece
 * two; marks always take as many. */
static size_t written(int call, uint64_t told)
{
    if (call == CALL_MARK)
        return MIRROR_MARKS_SIZE;
    return (size_t)mirror_first(told) * (call == CALL_MINIMAL_UNIQUE ? 4 : call == CALL_PIECES ? 2 : 1);
}

/* Spelling, listing, printing, the minimal unique palindromes, the fewest pieces and marks into a buffer that just fits, and into one
 * that is a byte short. */
static void tight(const struct sitting *s)
{
    for (int i = CALL_SPELL; i < PAIRS; i++) {
        if (is_find(i))
            continue;
        here = there = *s;
        size_t fits = written(i, compare(&calls[i], "a large buffer"));
        for (size_t less = 0; less < 2 && less <= fits; less++) {
            here = there = *s;
            here.out_length = there.out_length = fits - less;
            compare(&calls[i], "a tight buffer");
        }
    }
}

/* Listing with a byte of scratch less than it needs, where it needs one, with just enough and with one more. */
static void scratches(const struct sitting *s)
{
    size_t need = MIRROR_LIST_SCRATCH(size_of(s->store));
    for (size_t lent = need == 0 ? 0 : need - 1; lent <= need + 1; lent++) {
        here = there = *s;
        here.scratch_length = there.scratch_length = lent;
        if ((compare(&calls[CALL_LIST], "scratch about the need") & 0xff) == (lent < need ? 9 : 0))
            continue;
        printf("bench/same: list of %u letters with %zu bytes of scratch\n", size_of(s->store), lent);
        exit(1);
    }
}

/* Lists of few letters, and of so many that the ranks fill the windows by which their length is found out, and a little more or
 * less. */
static void lists(int word, enum reading reading)
{
    static const size_t from[] = {0, 340, 684, 1012}, to[] = {40, 348, 692, CAPACITY_MOST};
    static struct sitting s;
    for (size_t i = 0; i < sizeof from / sizeof *from; i++)
        for (size_t n = from[i]; n <= to[i]; n++) {
            seat(&s, word, reading, n, n == 0 ? 1 : n);
            scratches(&s);
            tight(&s);
        }
}

/* Numbers of all sizes in the reading cell, the right one and the other reading's among them; in an empty record both
 * are good. */
static void readings(const struct sitting *s)
{
    static struct sitting changed;
    changed = *s;
    for (unsigned number = 0; number < 65536; number += number < 520 ? 1 : 211) {
        put(changed.store, 0, 11, number);
        if (number <= INVERTED) {
            compare_all(&changed, "another reading");
            continue;
        }
        here = there = changed;
        compare_damaged("no reading");
    }
}

/* The pieces that are timed are absent and break where their names say, or the names in the tables would be untrue. */
static void as_named(const struct sitting *s, size_t n)
{
    here = there = *s;
    for (int find = CALL_FIND_OUTSIDE; find < CALL_FIND + FINDS; find++)
        if (compare(&calls[find], "a timed piece") != answer(false, 0, broken_pair(find, n), 0)) {
            printf("bench/same: %s does not answer what its name says\n", calls[find].name);
            exit(1);
        }
}

static void compare_piece(const struct piece *piece, const char *where)
{
    here.pieces[0] = there.pieces[0] = *piece;
    compare(&calls[CALL_FIND], where);
}

/* The repeat of a row, and pieces near it: with one letter changed, with one more in the middle, so that an even one becomes odd,
 * and with each letter and its partner around it, most of which are absent. */
static void near_row(const uint8_t *partners, unsigned row, uint32_t *seed)
{
    struct piece repeat = {.length = 0}, piece;
    size_t n = repeat.length = twin_spell(here.store, here.length, row, repeat.letters, PIECE_MOST) >> 32 & 0xffff;
    compare_piece(&repeat, "a repeat");
    piece = repeat;
    if (n > 0)
        piece.letters[(next_random(seed) >> 8) % n] = (uint8_t)"ACGT"[next_random(seed) >> 30];
    compare_piece(&piece, "nearly a repeat");
    piece = repeat;
    memmove(piece.letters + n / 2 + 1, piece.letters + n / 2, n - n / 2);
    piece.letters[n / 2] = (uint8_t)"ACGT"[next_random(seed) >> 30];
    piece.length = n + 1;
    compare_piece(&piece, "a letter in the middle");
    for (int i = 0; i < 4; i++) {
        memcpy(piece.letters + 1, repeat.letters, n);
        piece.letters[0] = (uint8_t)"ACGT"[i];
        piece.letters[n + 1] = partners[piece.letters[0]];
        piece.length = n + 2;
        compare_piece(&piece, "letters around a repeat");
    }
}

/* A piece of this length that reads alike, the same broken at some pairs, and one that is refused. */
static void around_length(enum reading reading, size_t length)
{
    static struct piece alike, broken;
    size_t pairs[] = {1, 2, length / 4, length / 2, length - length / 2};
    make_alike(&alike, reading, length);
    compare_piece(&alike, "a piece that reads alike");
    for (size_t i = 0; i < sizeof pairs / sizeof *pairs; i++) {
        broken = alike;
        if (pairs[i] > 0 && pairs[i] <= length)
            break_pair(&broken, pairs[i]);
        compare_piece(&broken, "a broken piece");
    }
    if (length > 0)
        broken.letters[length / 3] = 'N';
    compare_piece(&broken, "a piece with a byte that is no letter");
}

/* A capacity for n letters that leaves some rows free, where it can. */
static size_t roomy(size_t n) { return n + n / 8 + 3 < CAPACITY_MOST ? n + n / 8 + 3 : CAPACITY_MOST; }

/* Finding in a record of n letters of a word: about 50 of its repeats and what is near them, then pieces of few letters, and of
 * about as many as the record has. */
static void finds(int word, enum reading reading, size_t n)
{
    uint32_t seed = (uint32_t)word + 1;
    seat(&here, word, reading, n, roomy(n));
    there = here;
    unsigned rows = count_of(here.store), each = rows / 50 + 1;
    for (unsigned rank = 0; rank < rows; rank += each)
        near_row(partner_tables[reading], get(here.store, rank + 2, ORDER), &seed);
    near_row(partner_tables[reading], EMPTY, &seed);
    for (size_t length = 0; length < 8; length++)
        around_length(reading, length);
    for (size_t length = n < 2 ? 0 : n - 2; length <= n + 2; length++)
        around_length(reading, length);
}

/* A piece so long that two bytes cannot tell each of its pairs: around the largest that they can. */
static void long_piece(enum reading reading, size_t pair)
{
    static uint8_t letters[LONG_PIECE];
    seat(&here, ALL_A, reading, 5, 9);
    make_word(reading * WORDS + ALL_A, letters, LONG_PIECE);
    if (pair > 0)
        letters[LONG_PIECE - pair] = 'G';
    uint64_t expected = answer(false, 0, pair < 65535 ? (unsigned)pair : 65535, 0);
    compared++;
    if (mirror_find(here.store, here.length, letters, LONG_PIECE) == expected
        && twin_find(here.store, here.length, letters, LONG_PIECE) == expected)
        return;
    printf("bench/same: find of %d letters that break at pair %zu\n", LONG_PIECE, pair);
    exit(1);
}

/* Pieces to find, of all kinds, in records of every word. */
static void all_finds(enum reading reading)
{
    static const size_t sizes[] = {0, 1, 2, 9, 60, 125, 1000, 1024};
    for (int word = 0; word < ALL_WORDS; word++)
        for (size_t i = 0; i < sizeof sizes / sizeof *sizes; i++)
            finds(word, reading, sizes[i]);
    for (size_t pair = 65533; pair < 65540; pair++)
        long_piece(reading, pair);
    long_piece(reading, 0);
    long_piece(reading, LONG_PIECE / 2);
}

/* The frequency of a row number; 0 where it is refused, which must be with 7. */
static unsigned compare_frequency(uint64_t row)
{
    here.row = there.row = row;
    uint64_t told = compare(&calls[CALL_FREQUENCY], "the frequency of a row");
    if (told == 7 || (told != 0 && told == answer(false, 0, mirror_first(told), 0)))
        return mirror_first(told);
    printf("bench/same: frequency of row %llu answers %016llx\n", (unsigned long long)row, (unsigned long long)told);
    exit(1);
}

/* Numbers that no row has, though the low bits are those of row 2; how many places they come to, which must be none. */
static unsigned beyond_rows(void)
{
    unsigned sum = 0;
    for (int bits = 16; bits < 64; bits++)
        sum += compare_frequency(UINT64_C(1) << bits | 2);
    return sum;
}

/* The frequency of every row of a record of n letters, and of numbers beyond the last: their sum is what occurrences tells in two
 * ways. The row that is timed as the most frequent one is that, or its name in the tables would be untrue. */
static void frequencies(int word, enum reading reading, size_t n)
{
    struct piece often;
    unsigned sum = 0, most = 0;
    seat(&here, word, reading, n, roomy(n));
    there = here;
    for (uint64_t row = 0; row < here.capacity + 5; row++) {
        unsigned frequency = compare_frequency(row);
        sum += frequency;
        most = frequency > most ? frequency : most;
    }
    sum += beyond_rows();
    uint64_t all = compare(&calls[CALL_OCCURRENCES], "all by place");
    unsigned timed = mirror_first(compare(&calls[CALL_FREQUENCY_OFTEN], "the most frequent"));
    if (mirror_by_rows(all) == sum && mirror_by_ends(all) == sum && timed == most
        && make_often(&often, reading, letters_of(here.store), n) == most)
        return;
    printf("bench/same: %s of %zu letters: frequencies come to %u and occurrences to %016llx, the largest is %u and the timed one "
           "%u\n", word_names[word], n, sum, (unsigned long long)all, most, timed);
    exit(1);
}

/* Frequencies in records of every word. */
static void all_frequencies(enum reading reading)
{
    static const size_t sizes[] = {0, 1, 2, 9, 60, 125, 250, 1000, 1024};
    for (int word = 0; word < ALL_WORDS; word++)
        for (size_t i = 0; i < sizeof sizes / sizeof *sizes; i++)
            frequencies(word, reading, sizes[i]);
}

/* The page of a record of n letters, with a byte of room less than it needs, with just enough and with one more. The buffer is
 * painted, so that it shows what is written behind the page, or by a refusal. */
static void pages(int word, enum reading reading, size_t n)
{
    static struct sitting s;
    size_t need = MIRROR_GENBANK_SIZE(n);
    seat(&s, word, reading, n, roomy(n));
    memset(s.out, OUT_PAINT, sizeof s.out);
    for (size_t lent = need - 1; lent <= need + 1; lent++) {
        here = there = s;
        here.out_length = there.out_length = lent;
        if (compare(&calls[CALL_GENBANK], "room about the need") == (lent < need ? 9 : answer(false, 0, (unsigned)need, 0)))
            continue;
        printf("bench/same: genbank of %zu letters with room for %zu bytes\n", n, lent);
        exit(1);
    }
}

/* Pages of every word: of no letter, and about the ends of groups and of lines and where a place gets a digit more. */
static void all_pages(enum reading reading)
{
    static const size_t sizes[] = {0, 1, 9, 10, 11, 59, 60, 61, 119, 120, 121, 1000, 1020, 1021, 1024};
    for (int word = 0; word < ALL_WORDS; word++)
        for (size_t i = 0; i < sizeof sizes / sizeof *sizes; i++)
            pages(word, reading, sizes[i]);
}

/* A call that writes places of a record of n letters, with no room, with a byte less than they need, with just enough, and with one
 * and three more. The buffer is painted, so that it shows what is written behind them, or by a refusal. An inverted record is not cut
 * into pieces, whatever the room. */
static void places(int call, int word, enum reading reading, size_t n)
{
    static struct sitting s;
    seat(&s, word, reading, n, roomy(n));
    memset(s.out, OUT_PAINT, sizeof s.out);
    here = there = s;
    uint64_t told = compare(&calls[call], "a large buffer");
    size_t need = written(call, told), lent[] = {0, need == 0 ? 0 : need - 1, need, need + 1, need + 3};
    bool right = mirror_refusal(told) == (works_on(call, (int)reading) ? 0 : 14);
    for (size_t i = 0; right && i < sizeof lent / sizeof *lent; i++) {
        here = there = s;
        here.out_length = there.out_length = lent[i];
        right = compare(&calls[call], "room about the need") == (lent[i] < need ? 9 : told);
    }
    if (right)
        return;
    printf("bench/same: %s of %zu letters, with room about the need\n", calls[call].name, n);
    exit(1);
}

/* Minimal unique palindromes and the fewest pieces of every word. */
static void all_places(enum reading reading)
{
    static const size_t sizes[] = {0, 1, 2, 3, 124, 125, 126, 1000, 1023, 1024};
    for (int word = 0; word < ALL_WORDS; word++)
        for (size_t i = 0; i < sizeof sizes / sizeof *sizes; i++)
            for (int call = CALL_MINIMAL_UNIQUE; call <= CALL_PIECES; call++)
                places(call, word, reading, sizes[i]);
}

/* How long a sheet is without its last line. */
static size_t a_line_less(const struct sitting *s)
{
    size_t length = s->sheet_length - 1;
    while (length > 0 && s->sheet[length - 1] != '\n')
        length--;
    return length;
}

/* The sheet that is timed has full marks, and not with a line less, or its name in the tables would be untrue. */
static void own_list(const struct sitting *s)
{
    here = there = *s;
    bool right = compare(&calls[CALL_MARK], "the own list") == answer(true, 0, 0, 0);
    if (right && s->sheet_length > 0) {
        here.sheet_length = there.sheet_length = a_line_less(s);
        right = compare(&calls[CALL_MARK], "a line less") == 0 && mirror_missing(here.out) == 1;
    }
    if (right)
        return;
    printf("bench/same: the list of %u letters, marked\n", size_of(s->store));
    exit(1);
}

/* The inputs that the benchmark times, and the largest records; each word in both readings, since one that was made for
 * the other has few repeats or none. */
static void on_words(enum reading reading)
{
    static const size_t sizes[] = {0, 1, 2, 125, 250, 500, 1000};
    static struct sitting s;
    for (int word = 0; word < ALL_WORDS; word++) {
        for (size_t i = 0; i < sizeof sizes / sizeof *sizes; i++) {
            seat(&s, word, reading, sizes[i], sizes[i] + 24);
            compare_all(&s, word_names[word]);
            tight(&s);
            own_list(&s);
            if (sizes[i] >= 125)
                as_named(&s, sizes[i]);
        }
        seat(&s, word, reading, 1024, 1024);
        compare_all(&s, word_names[word]);
    }
    for (size_t n = 0; n < 4; n++) {
        seat(&s, WORDS + ALL_A, reading, n, 12);
        readings(&s);
    }
}

/* Pieces to find: a short stretch of the record, and the same with each letter at one of its places. */
static void draw_pieces(uint32_t r)
{
    size_t n = size_of(here.store), from = n == 0 ? 0 : r % n, length = r / 1024 % 9;
    struct piece *pieces = here.pieces;
    pieces[0].length = length < n - from ? length : n - from;
    memcpy(pieces[0].letters, letters_of(here.store) + from, pieces[0].length);
    for (int i = 1; i < FINDS; i++) {
        pieces[i] = pieces[0];
        if (pieces[i].length > 0)
            pieces[i].letters[r / 9216 % pieces[i].length] = (uint8_t)"ACGT"[i % 4];
    }
    memcpy(there.pieces, pieces, sizeof there.pieces);
}

/* The row at some place of the order, and 0 where no row is in use. */
static unsigned draw_row(uint32_t r)
{
    unsigned rows = count_of(here.store);
    return rows == 0 ? 0 : get(here.store, r % rows + 2, ORDER);
}

/* What a sitting does at a step: it adds and removes at both ends, with a question now and then, and a turn, which may be
 * to the reading in force, where it turns at all. */
static int next_call(uint32_t r, int step, bool turning)
{
    int what = (int)(r / 64 % 40);
    if (turning && step % BETWEEN_TURNS == BETWEEN_TURNS - 1)
        return CALL_TURN_PLAIN + (int)(r / 4096 % 2);
    if (what >= CALL_LENGTH && what < PAIRS)
        return what;
    bool rising = step / 300 % 3 != 2;
    return (rising ? CALL_ADD_LEFT : CALL_REMOVE_LEFT) + (int)(r / 4096 % 2);
}

/* The list of the record as it is, as the sheet of both; later changes of the record make some of its lines wrong. */
static void hand_in(struct sitting *one, struct sitting *other)
{
    hand_in_list(one);
    memcpy(other->sheet, one->sheet, sizeof one->sheet);
    other->sheet_length = one->sheet_length;
}

/* A sitting from an empty record on. One that turns is no stand-in for one that does not: a turn puts the rows back in their
 * first order, which many changes at both ends have mixed. */
static void sitting(uint32_t seed, enum reading reading, size_t capacity, const char *letters, bool turning)
{
    seat(&here, ALL_A, reading, 0, capacity);
    there = here;
    for (int i = 0; i < STEPS; i++) {
        uint32_t r = next_random(&seed) >> 8;
        here.letter = there.letter = (uint64_t)letters[r % strlen(letters)];
        here.row = there.row = r / 7 % (capacity + 3);
        here.often = there.often = draw_row(r / 17);
        here.place = there.place = r / 11 % (capacity + 1);
        draw_pieces(r / 13);
        if (i % BETWEEN_SHEETS == 0)
            hand_in(&here, &there);
        compare(&calls[next_call(r, i, turning)], turning ? "a sitting that turns" : "a sitting");
    }
}

/* A full record of a word taken away at either end by chance, with both ends asked, the page printed and the minimal unique
 * palindromes and the fewest pieces told at every letter, and the counts by place and a list, which is marked, at every eighth: what
 * is removed leaves ranks to other rows, so that these come in no order. In between the last list is marked, some of whose lines have
 * become wrong. */
static void taken_away(uint32_t seed, int word, enum reading reading)
{
    seat(&here, word, reading, CAPACITY_MOST, CAPACITY_MOST);
    there = here;
    while (size_of(here.store) > 0) {
        compare_ends(word_names[word]);
        for (int i = CALL_GENBANK; i <= CALL_MARK; i++)
            compare(&calls[i], word_names[word]);
        if (size_of(here.store) % 8 == 0) {
            here.often = there.often = draw_row(seed >> 8);
            compare_counts(word_names[word]);
            compare_list(word_names[word]);
            hand_in(&here, &there);
            compare(&calls[CALL_MARK], word_names[word]);
        }
        compare(&calls[CALL_REMOVE_LEFT + (int)(next_random(&seed) >> 31)], word_names[word]);
    }
}

/* Good stores with a few cells or letters changed: both must take or refuse them alike. */
static void damage(uint32_t seed, int word, size_t n, size_t capacity, int tries)
{
    static struct sitting good;
    seat(&good, word, word_reading(word), n, capacity);
    size_t rows = ROW_BYTES * (capacity + 2), used = rows + capacity;
    for (int i = 0; i < tries; i++) {
        here = good;
        for (int k = (int)(next_random(&seed) >> 30); k >= 0; k--) {
            size_t at = (next_random(&seed) >> 4) % used, from = (next_random(&seed) >> 4) % rows;
            uint32_t kind = next_random(&seed) >> 30;
            if (kind == 0 || at >= rows)
                here.store[at] = (uint8_t)next_random(&seed);
            else if (kind == 1)
                put(here.store, at / 24, at % 24 / 2, get(here.store, from / 24, from % 24 / 2));
            else
                put(here.store, at / 24, at % 24 / 2, (next_random(&seed) >> 4) % (unsigned)(capacity + 3));
        }
        there = here;
        compare_damaged("a damaged store");
    }
}

/* Other numbers in a cell: one less, one more, and some further off. */
static void changed_cell(const struct sitting *s, size_t row, size_t cell)
{
    unsigned right = get(s->store, row, cell), numbers[] = {right - 1, right + 1, 0, 1, right + 256, 65535};
    for (size_t i = 0; i < sizeof numbers / sizeof *numbers; i++) {
        here = *s;
        put(here.store, row, cell, numbers[i]);
        there = here;
        compare_damaged("another number in a cell");
    }
}

/* One palindrome counted at each other length instead of its own, so that the sum of the counts stays. */
static void counted_elsewhere(const struct sitting *s, size_t row)
{
    for (size_t other = 2; get(s->store, row, CARRIED) != 0 && other < s->capacity + 2; other++) {
        here = *s;
        put(here.store, row, CARRIED, get(here.store, row, CARRIED) - 1);
        put(here.store, other, CARRIED, get(here.store, other, CARRIED) + 1);
        there = here;
        compare_damaged("a palindrome counted elsewhere");
    }
}

/* Each carried number changed by itself, and two of the counts at a time; then the cells beside them, which are free. */
static void carried(int word, size_t n, size_t capacity)
{
    static struct sitting s;
    seat(&s, word, word_reading(word), n, capacity);
    for (size_t row = EMPTY; row < capacity + 2; row++)
        changed_cell(&s, row, CARRIED);
    for (size_t row = 2; row < capacity + 2; row++)
        counted_elsewhere(&s, row);
    for (size_t row = EMPTY; row < capacity + 2; row++)
        put(s.store, row, CARRIED + 1, 65535 - (unsigned)row);
    compare_all(&s, "numbers in the free cells");
}

/* Each row in turn with a rank that is none, and named where its place would lie: behind all that a store of 12 letters uses. */
static void past_the_places(int word)
{
    static struct sitting s;
    enum { CAPACITY = 12 };
    seat(&s, word, word_reading(word), 9, CAPACITY);
    for (unsigned row = 2; row < CAPACITY + 2; row++)
        for (unsigned rank = CAPACITY; rank < CAPACITY + 3; rank++) {
            here = s;
            put(here.store, row, RANK, rank);
            put(here.store, rank + 2, ORDER, row);
            there = here;
            compare_damaged("a rank past the places");
        }
}

int main(void)
{
    for (int reading = PLAIN; reading <= INVERTED; reading++) {
        on_words(reading);
        all_finds(reading);
        all_frequencies(reading);
        all_pages(reading);
        all_places(reading);
        for (int word = 0; word < ALL_WORDS; word++) {
            lists(word, reading);
            taken_away((uint32_t)word + 1, word, reading);
        }
        sitting(7, reading, 40, reading == PLAIN ? "AC" : "AT", false);
        sitting(8, reading, 300, "ACGT", false);
        sitting(9, reading, 9, reading == PLAIN ? "ACG" : "ATC", false);
        sitting(10, reading, 40, "AT", true);
        sitting(11, reading, 300, "ACGT", true);
        sitting(12, reading, 9, "ATC", true);
    }
    for (int word = 0; word < BOTH_WORDS; word++) {
        damage((uint32_t)word + 1, word, 9, 12, 8000);
        damage((uint32_t)word + 9, word, 60, 64, 4000);
        carried(word, 0, 3);
        carried(word, 9, 12);
        carried(word, 60, 64);
        past_the_places(word);
    }
    printf("bench/same: %lu calls gave equal answers and equal bytes, %lu damaged stores refused by both\n", compared,
           refused);
    return 0;
}

/* How often repeats stand, 02 (iii), through the C boundary: the frequency of every row and the two sums of all places, in
 * records of both readings, held against the program that tries every stretch. Every word of up to six letters, put in at the
 * right, at the left, at both ends, behind letters that go again, and into a record that is turned then; records that move on and
 * are turned now and then, asked after every change; structured words up to full length. Rows that were taken again must be seen to
 * link to higher ones, in either reading. Rows without a repeat are refused, whatever the number; no byte of a store may change.
 * Usage: counting [seed] */
#include "brute.h"
#include "followed.h"
#include "guard.h"
#include "mirror.h"
#include "random.h"
#include "words.h"
#include <stdio.h>
#include <string.h>

enum { MOST = WORD_LENGTH, SHORT = 6 };

static uint8_t kept[MIRROR_STORE_SIZE(MOST)];
static unsigned long records, rows, free_rows, upward[READINGS], most;

/* ---- one record */

/* A row has the frequency of what it spells, and is refused where it spells nothing: a root, a free row, a number that is no
 * row's. How often it stands. */
static size_t ask_row(uint64_t row)
{
    uint8_t word[MOST];
    size_t n = mirror_first(mirror_spell(record.store, record.length, row, word, sizeof word)), first, places = 0;
    if (n > 0) places = brute_places(word, n, record.letters, record.size, &first);
    must("what a row spells stands", n > 0, places > 0);
    must("frequency", n > 0 ? (uint64_t)places << 32 : MIRROR_NO_PLACE, mirror_frequency(record.store, record.length, row));
    upward[record.reading] += n > 0 && mirror_row_of(mirror_row(record.store, record.length, row)) > row;
    rows += n > 0;
    free_rows += n == 0;
    return places;
}

/* every row, and numbers that would be a row's if they were narrowed; then the two sums, each by its own definition */
static void ask_all(void)
{
    static const uint64_t far[] = {(1ull << 16) + 2, (1ull << 32) + 2, (1ull << 63) + 2, UINT64_MAX};
    uint64_t by_rows = 0, by_ends = brute_by_ends(record.rule, record.letters, record.size);
    memcpy(kept, record.store, record.length);
    for (uint64_t row = 0; row < record.capacity + 4; row++) by_rows += ask_row(row);
    for (size_t i = 0; i < sizeof far / sizeof far[0]; i++) ask_row(far[i]);
    uint64_t answer = mirror_occurrences(record.store, record.length);
    must("all places, summed over the rows", by_rows, mirror_by_rows(answer));
    must("all places, summed over the words", brute_by_words(record.rule, record.letters, record.size), mirror_by_rows(answer));
    must("all places, summed over the right ends", by_ends, mirror_by_ends(answer));
    must("the bytes below the sums", 0, answer & 0xffff);
    must("a byte of the store changed", 0, memcmp(record.store, kept, record.length) != 0);
    records++;
    if (by_ends > most) most = by_ends;
}

static void one_word(unsigned wanted, const unsigned char *word, size_t n, int way)
{
    guard_in_turn();
    make_record(wanted, word, n, way);
    ask_all();
}

/* ---- all of it */

static void short_words(unsigned wanted)
{
    unsigned char word[SHORT];
    for (size_t n = 0; n <= SHORT; n++)
        for (unsigned code = 0; code < 1u << (2 * n); code++) {
            for (size_t i = 0; i < n; i++) word[i] = (unsigned char)"ACGT"[code >> (2 * i) & 3];
            for (int way = 0; way < WAYS; way++) one_word(wanted, word, n, way);
        }
}

/* Letters join at one end and leave at the other, and which is which changes now and then. Of the letters two are partners, and
 * some join as the partner of the letter at the other end. */
static void moving_record(unsigned wanted)
{
    unsigned alphabet = 1 + random_below(4), steps = 20 + random_below(60), left = 0;
    guard_in_turn();
    followed_open(wanted, 1 + random_below(random_below(3) ? 12 : 40));
    for (unsigned i = 0; i < steps; i++) {
        unsigned char letter = (unsigned char)"ATCG"[random_below(alphabet)];
        if (random_below(12) == 0) left = !left;
        if (random_below(40) == 0) followed_turn();
        if (record.size > 0 && random_below(4) == 0) letter = record.rule[record.letters[left ? record.size - 1 : 0]];
        if (record.size == record.capacity || (record.size > 0 && random_below(6) == 0)) followed_leave(!left);
        followed_join((int)left, letter);
        ask_all();
    }
    while (record.size > 0) {
        followed_leave((int)random_below(2));
        ask_all();
    }
}

/* more rows than a byte can number; the fewest A of which all places are more than two bytes can number; a full record */
static void long_words(unsigned wanted)
{
    static const size_t lengths[] = {257, 362, MOST};
    static unsigned char word[MOST];
    for (int kind = 0; kind < WORDS; kind++) {
        choose_word(kind, wanted, word);
        for (size_t i = 0; i < sizeof lengths / sizeof lengths[0]; i++)
            one_word(wanted, word, lengths[i], (int)((size_t)kind + i) % (lengths[i] == MOST ? 2 : WAYS));
    }
}

int main(int argc, char **argv)
{
    random_seed(argc > 1 ? argv[1] : NULL, 20261119);
    for (unsigned wanted = PLAIN; wanted < READINGS; wanted++) {
        short_words(wanted);
        for (int i = 0; i < 200; i++) moving_record(wanted);
        long_words(wanted);
    }
    for (record.reading = PLAIN; record.reading < READINGS; record.reading++) must("rows that link to higher ones", 1, upward[record.reading] > 0);
    must("the most places that a record can have", MOST * (MOST + 1) / 2, most);
    printf("%lu records, with at most %lu places: %lu rows counted, of which %lu and %lu link to higher ones, %lu rows without a repeat refused\n", records,
           most, rows, upward[PLAIN], upward[INVERTED], free_rows);
    return 0;
}

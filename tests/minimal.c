/* The minimal unique repeats, 02 (viii), through the C boundary: how many there are and where each stands, in records of both
 * readings. They are held against the program that tries every stretch, and against 003, lemma 5, asked of the library's own calls: a
 * row's repeat is one where it stands once and its inner row is a root's or stands at least twice. Every word of up to six letters,
 * put in at the right, at the left, at both ends, into a record that is turned then, and behind letters that go again; of seven
 * letters, each in one of these ways; records that move on and are turned now and then, asked after every change, so that rows are
 * taken again; structured and random words up to full length, and words with more than sixty-four in one record. Of what was written
 * the starts and the ends rise, so none lies within another, and each is the longest repeat at its right end and first ends there.
 * Each list goes into just its bytes and into a byte fewer, many into every room about that, odd ones, none, and far more. Too little
 * room is 9 and leaves every byte; else the list stands at the front, and every byte behind it stays. No byte of a store may change;
 * what is not good is 3, whatever the room. The buffers end at a guard page or begin right after one. Usage: minimal [seed] */
#include "brute.h"
#include "followed.h"
#include "guard.h"
#include "layout.h"
#include "mirror.h"
#include "random.h"
#include "words.h"
#include "written.h"
#include <stdio.h>

enum { MOST = WORD_LENGTH, SHORT = 6 };

static stretch wanted[MOST]; /* where each must stand */
static size_t number;
static unsigned long records, listed, most, by_lemma;
static unsigned long above[READINGS], falling[READINGS], wide[READINGS];

/* ---- one list */

/* what was written last, read as the header reads it */
static void obeys(void)
{
    must("more than letters", 1, number <= record.size);
    must("more bytes than are always enough", 1, asked.need <= MIRROR_MINIMAL_UNIQUE_SIZE(record.size));
    for (size_t i = 0; i < number; i++) {
        size_t start = mirror_start(asked.out, i), end = mirror_end(asked.out, i);
        must("no stretch of the record", 1, start < end && end <= record.size);
        must("a start does not rise", 1, i == 0 || mirror_start(asked.out, i - 1) < start);
        must("an end does not rise", 1, i == 0 || mirror_end(asked.out, i - 1) < end);
        must("the longest at its right end", brute_right(record.rule, record.letters, end), end - start);
        must("it ends there first", start, brute_first(record.letters + start, end - start, record.letters, record.size));
        wide[record.reading] += start > 255;
    }
}

/* the record as it is now: which there must be by every stretch, and that they are listed; into a byte fewer they are not */
static void one_list(void)
{
    number = brute_minimal_unique(record.rule, record.letters, record.size, wanted);
    asked.answer = (uint64_t)number << 32;
    asked.need = STRETCH_BYTES * number;
    for (size_t i = 0; i < number; i++) layout_stretch(asked.bytes, i, wanted[i].start, wanted[i].end);
    written_keep();
    if (number > 0) written_ask(asked.need - 1);
    written_ask(asked.need);
    obeys();
    written_store_stays();
    records++;
    listed += number;
    if (number > most) most = number;
}

/* ---- by the rows: 003, lemma 5 */

static size_t frequencies[MOST + 2], inners[MOST + 2];

/* Whether a row has such a repeat, by what the library answers of it and of its inner row. */
static int is_minimal(size_t row)
{
    return frequencies[row] == 1 && (inners[row] < 2 || frequencies[inners[row]] >= 2);
}

/* every row; how many have such a repeat */
static size_t ask_rows(void)
{
    size_t found = 0;
    for (size_t row = 2; row < record.capacity + 2; row++) {
        frequencies[row] = mirror_first(mirror_frequency(record.store, record.length, row)); /* 0 where the row is free */
        inners[row] = mirror_second(mirror_row(record.store, record.length, row));
    }
    for (size_t row = 2; row < record.capacity + 2; row++) found += (size_t)is_minimal(row);
    return found;
}

/* Of the list of all repeats, which goes by ends, those whose row has such a repeat are the ones that every stretch gives, in the same
 * order, and no other row has one. A repeat comes after its inner one, so only a row that was taken again has a higher inner row. */
static void same_by_rows(void)
{
    static uint8_t lines[MIRROR_LIST_SIZE(MOST)], scratch[MIRROR_LIST_SCRATCH(MOST)];
    uint64_t answer = mirror_list(record.store, record.length, (const uint8_t *)"e", 1, scratch, sizeof scratch, lines, sizeof lines);
    const char *line = (const char *)lines, *end = line + mirror_first(answer);
    size_t found = 0, last = 0;
    must("rows with such a repeat", number, ask_rows());
    for (int length; line < end; line += length) {
        stretch at;
        must("a line of the list", 2, (uint64_t)sscanf(line, "e\t%zu\t%zu\n%n", &at.start, &at.end, &length));
        size_t row = mirror_row_of(mirror_find(record.store, record.length, record.letters + at.start, at.end - at.start));
        if (!is_minimal(row)) continue;
        must("more by rows", 1, found < number);
        must("a start by rows", at.start, wanted[found].start);
        must("an end by rows", at.end, wanted[found].end);
        above[record.reading] += inners[row] > row;
        falling[record.reading] += row < last;
        last = row;
        found++;
    }
    must("fewer by rows", number, found);
    by_lemma += found;
}

/* ---- records */

static void every_room(void)
{
    written_every_room(MIRROR_MINIMAL_UNIQUE_SIZE(record.size));
}

static void one_word(unsigned reading, const unsigned char *word, size_t n, int way)
{
    guard_in_turn();
    make_record(reading, word, n, way);
    one_list();
    if (records % 8 == 0) every_room();
    if (records % 8 == 1) same_by_rows();
    if (records % 64 == 0) written_damage();
}

/* every word of up to six letters in every way, and those of seven each in one */
static void short_words(unsigned reading)
{
    unsigned char word[SHORT + 1];
    for (size_t n = 0; n <= SHORT + 1; n++)
        for (unsigned code = 0; code < 1u << (2 * n); code++) {
            for (size_t i = 0; i < n; i++) word[i] = (unsigned char)"ACGT"[code >> (2 * i) & 3];
            if (n > SHORT) one_word(reading, word, n, (int)(code % WAYS));
            else
                for (int way = 0; way < WAYS; way++) one_word(reading, word, n, way);
        }
}

/* Letters join at one end and leave at the other, and which is which changes now and then. Of the letters two are partners, and
 * some join as the partner of the letter at the other end. */
static void moving_record(unsigned reading, unsigned alphabet)
{
    unsigned steps = 20 + random_below(80), left = random_below(2);
    guard_in_turn();
    followed_open(reading, 1 + random_below(random_below(3) ? 12 : 60));
    for (unsigned i = 0; i < steps || record.size > 0; i++) {
        unsigned char letter = (unsigned char)"ATCG"[random_below(alphabet)];
        if (random_below(12) == 0) left = !left;
        if (random_below(40) == 0) followed_turn();
        if (record.size > 0 && random_below(4) == 0) letter = record.rule[record.letters[left ? record.size - 1 : 0]];
        if (record.size == record.capacity || (record.size > 0 && (i >= steps || random_below(6) == 0))) followed_leave(!left);
        if (i < steps) followed_join((int)left, letter);
        one_list();
        same_by_rows();
        if (i % 16 == 0) every_room();
        if (i % 32 == 0) written_damage();
    }
}

/* of the full records each other one is held against its rows too, which takes most of the time */
static void long_word(unsigned reading, const unsigned char *word, size_t n, int way)
{
    guard_in_turn();
    make_record(reading, word, n, way);
    one_list();
    if (n < MOST || records % 2) same_by_rows();
    every_room();
    written_damage();
}

/* more places than a byte can number, in every way; and full records in every way but behind others */
static void long_words(unsigned reading)
{
    static unsigned char word[MOST];
    for (int kind = 0; kind < WORDS; kind++) {
        choose_word(kind, reading, word);
        for (int way = 0; way < WAYS; way++) long_word(reading, word, 257 + (size_t)way, way);
        for (int way = 0; way < BEHIND_OTHERS; way++) long_word(reading, word, MOST, way);
    }
}

/* Runs of each letter behind each other one, of one letter, of two and so on: a run stands often, and with the letters about it once.
 * In an inverted record each letter is followed by its partner. How many letters. */
static size_t runs(unsigned reading, unsigned char *word)
{
    size_t n = 0, each = reading == PLAIN ? 1 : 2, longest = reading == PLAIN ? 11 : 7;
    for (const char *f = "ACGT"; *f; f++)
        for (size_t k = 1; k <= longest; k++)
            for (const char *b = "ACGT"; *b; b++)
                for (size_t i = 0; *b != *f && i <= k; i++, n += each) word[n] = (unsigned char)(i ? *b : *f);
    for (size_t i = 0; reading == INVERTED && i < n; i += 2) word[i + 1] = brute_rule(reading)[word[i]];
    return n;
}

/* so many that a byte cannot number their bytes */
static void many_in_one(unsigned reading)
{
    static unsigned char word[MOST];
    size_t n = runs(reading, word);
    for (int way = 0; way < WAYS; way++) {
        long_word(reading, word, n, way);
        must("more than 64 in one record", 1, number > 64);
    }
}

int main(int argc, char **argv)
{
    random_seed(argc > 1 ? argv[1] : NULL, 20261121);
    asked.call = mirror_minimal_unique;
    for (unsigned reading = PLAIN; reading < READINGS; reading++) {
        short_words(reading);
        for (unsigned i = 0; i < 120; i++) moving_record(reading, 1 + i % 4);
        long_words(reading);
        many_in_one(reading);
    }
    for (record.reading = PLAIN; record.reading < READINGS; record.reading++) {
        must("rows with a higher inner row", 1, above[record.reading] > 0);
        must("rows that fall from one listed repeat to the next", 1, falling[record.reading] > 0);
        must("a start above 255", 1, wide[record.reading] > 0);
    }
    printf("%lu records with %lu minimal unique repeats, at most %lu in one, %lu of them by lemma 5 too: ", records, listed, most, by_lemma);
    printf("%lu lists, %lu rooms too small and %lu stores that are not good refused; ", asked.lent, asked.refused, asked.damaged);
    printf("%lu and %lu rows with a higher inner row\n", above[PLAIN], above[INVERTED]);
    return 0;
}

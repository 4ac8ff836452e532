/* The fewest pieces, 02 (xiv), through the C boundary: how many there are and where each ends. Every word of up to twelve letters of two
 * kinds, nine of three and six of four is held against every cutting, by the words of 02: each piece a palindrome, no cutting with fewer,
 * and among those with as few the last piece longest, then the one before it. They and all else are held against the plain recurrence over
 * the palindromes that trying every stretch finds: records that move on, letters joining at one end and leaving at the other, so that rows
 * are taken again, asked after every change; structured and random words that grow to full length at either end and go again from the
 * left, or have their single letters in the last rows. Of what was written each piece is a palindrome, and all joined are the record;
 * there are no more than letters, and one exactly where the record is a palindrome; a letter more or fewer at an end changes their number
 * by one at most. Pieces go into just their bytes and into one fewer, many into other rooms (written.h). An inverted record is 14, an
 * empty one too, whatever the room, and turned plain it is cut again; what is not good is 3 before that. The buffers end at a guard page
 * or begin right after one.
 * Usage: pieces [seed] */
#include "brute.h"
#include "followed.h"
#include "guard.h"
#include "layout.h"
#include "mirror.h"
#include "random.h"
#include "words.h"
#include "written.h"
#include <stdio.h>
#include <string.h>

enum { MOST = WORD_LENGTH, LONGEST_TRIED = 12, STEP = 31 };
enum { STOPPED = WORDS, SINGLES, KINDS }; /* GTA..A, and ACG again and again, where no two letters make a palindrome */

static size_t ends[MOST], number; /* of the record that stands; none where it is inverted */
static unsigned long records, inverted, pieces, most, tried, ties, wide, upward, changes;

/* ---- one record */

/* what was written last, read as the header reads it */
static void obeys(void)
{
    size_t start = 0;
    must("more pieces than letters", 1, number <= record.size);
    must("one piece exactly of a palindrome", (uint64_t)brute_palindrome(record.rule, record.letters, record.size), number == 1);
    for (size_t i = 0; i < number; i++) {
        size_t end = mirror_piece_end(asked.out, i);
        must("a piece is no stretch of the record", 1, start < end && end <= record.size);
        must("a piece is no palindrome", 1, (uint64_t)brute_palindrome(record.rule, record.letters + start, end - start));
        wide += end > 255;
        start = end;
    }
    must("the letters of all pieces", record.size, start);
}

/* the record as it is now: how it must be cut, and that it is; into a byte fewer it is not. An inverted one never is */
static void one_record(void)
{
    int plain = record.reading == PLAIN;
    number = plain ? brute_pieces(record.letters, record.size, ends) : 0;
    asked.answer = plain ? (uint64_t)number << 32 : MIRROR_INVERTED;
    asked.need = layout_pieces(asked.bytes, ends, number);
    written_keep();
    if (number > 0) written_ask(asked.need - 1);
    if (!plain) written_ask(MIRROR_PIECES_SIZE(record.size));
    written_ask(asked.need);
    if (plain) obeys();
    written_store_stays();
    records++;
    inverted += !plain;
    pieces += number;
    if (number > most) most = number;
}

static void every_room(void)
{
    written_every_room(MIRROR_PIECES_SIZE(record.size));
}

/* ---- changes */

/* a letter has joined or left: from so many pieces their number moves by one at most */
static void changed(size_t before)
{
    one_record();
    must("a letter changes the number by more than one", 1, number <= before + 1 && before <= number + 1);
    changes++;
}

/* every letter more and one fewer, at either end */
static void neighbours(void)
{
    size_t before = number;
    for (int left = 0; left < 2; left++) {
        for (const char *letter = "ACGT"; record.size < record.capacity && *letter; letter++) {
            followed_join(left, (unsigned char)*letter);
            changed(before);
            followed_leave(left);
        }
        if (record.size == 0) continue;
        unsigned char letter = record.letters[left ? 0 : record.size - 1];
        followed_leave(left);
        changed(before);
        followed_join(left, letter);
    }
    one_record();
    must("the number of pieces once the letters are back", before, number);
}

/* turned it is refused in every room and where it is not good; turned back it is cut as before */
static void there_and_back(void)
{
    size_t before = number;
    followed_turn();
    one_record();
    every_room();
    written_damage();
    followed_turn();
    one_record();
    must("the number of pieces after a turn and back", before, number);
}

/* ---- every cutting of a short word */

/* the lengths of its pieces, the last one's first */
typedef struct { size_t pieces, lengths[LONGEST_TRIED]; } cutting;

static cutting best; /* of the word at hand */

/* The word cut before each letter of which `cuts` has the bit, the second letter's being the lowest; 1 where each piece is a
 * palindrome. */
static int cut_so(const unsigned char *word, size_t n, unsigned cuts, cutting *c)
{
    size_t end = n;
    c->pieces = 0;
    for (size_t start = n; start-- > 0;) {
        if (start > 0 && !(cuts >> (start - 1) & 1)) continue;
        if (!brute_palindrome(brute_rule(PLAIN), word + start, end - start)) return 0;
        c->lengths[c->pieces++] = end - start;
        end = start;
    }
    return 1;
}

/* fewer pieces; or as many, and the last that differs in length is longer */
static int is_better(const cutting *one, const cutting *other)
{
    size_t i = 0;
    if (one->pieces != other->pieces) return one->pieces < other->pieces;
    while (i < one->pieces && one->lengths[i] == other->lengths[i]) i++;
    return i < one->pieces && one->lengths[i] > other->lengths[i];
}

static void try_every_cutting(const unsigned char *word, size_t n)
{
    size_t as_few = 0;
    best.pieces = n + 1;
    for (unsigned cuts = 0; cuts < 1u << (n > 0 ? n - 1 : 0); cuts++) {
        cutting now;
        if (!cut_so(word, n, cuts, &now) || now.pieces > best.pieces) continue;
        as_few = now.pieces < best.pieces ? 1 : as_few + 1;
        if (is_better(&now, &best)) best = now;
    }
    tried++;
    ties += as_few > 1;
}

/* the record of that word is cut in this way, by what was written last */
static void is_best(void)
{
    size_t end = record.size;
    must("as many as in the best cutting", best.pieces, number);
    for (size_t i = 0; i < number; i++) {
        must("an end in the best cutting", end, mirror_piece_end(asked.out, number - 1 - i));
        end -= best.lengths[i];
    }
}

static void one_word(const unsigned char *word, size_t n, int way)
{
    guard_in_turn();
    make_record(PLAIN, word, n, way);
    one_record();
    is_best();
    if (records % 8 == 0) every_room();
    if (records % 16 == 1) neighbours();
    if (records % 64 == 2) written_damage();
    if (records % 64 == 3) there_and_back();
}

/* every word of up to so many of the first k letters: the longest each in one way, the others in every way */
static void short_words(unsigned k, size_t longest)
{
    unsigned char word[LONGEST_TRIED];
    size_t words = 1;
    for (size_t n = 0; n <= longest; n++, words *= k)
        for (size_t code = 0; code < words; code++) {
            size_t rest = code;
            for (size_t i = 0; i < n; i++, rest /= k) word[i] = (unsigned char)"ACGT"[rest % k];
            try_every_cutting(word, n);
            if (n == longest) one_word(word, n, (int)(code % WAYS));
            else
                for (int way = 0; way < WAYS; way++) one_word(word, n, way);
        }
}

/* ---- records that move on */

/* rows that link to a higher one: only what was taken again does */
static void count_upward(void)
{
    for (size_t row = 2; row < record.capacity + 2; row++) upward += mirror_row_of(mirror_row(record.store, record.length, row)) > row;
}

/* Letters join at one end and leave at the other, and which is which changes now and then; so does the reading. At last all leave. */
static void moving_record(unsigned reading, unsigned alphabet)
{
    unsigned steps = 20 + random_below(100), left = random_below(2);
    guard_in_turn();
    followed_open(reading, 1 + random_below(random_below(3) ? 12 : 60));
    one_record();
    for (unsigned i = 0; i < steps || record.size > 0; i++) {
        size_t before = number;
        if (i >= steps || record.size == record.capacity || (record.size > 0 && random_below(3) == 0)) followed_leave(!left);
        else followed_join((int)left, (unsigned char)"ATCG"[random_below(alphabet)]);
        changed(before);
        count_upward();
        if (random_below(12) == 0) left = !left;
        if (random_below(40) == 0) followed_turn(), one_record();
        if (i % 16 == 0) every_room();
        if (i % 32 == 0) written_damage();
    }
}

/* ---- long words */

static void choose_long_word(int kind, unsigned char *word)
{
    if (kind < WORDS) choose_word(kind, PLAIN, word);
    for (size_t i = 0; kind >= WORDS && i < MOST; i++) word[i] = (unsigned char)(kind == SINGLES ? "ACG"[i % 3] : i < 2 ? "GT"[i] : 'A');
}

static void long_word(const unsigned char *word, size_t n, int way)
{
    guard_in_turn();
    make_record(PLAIN, word, n, way);
    one_record();
    every_room();
    neighbours();
    written_damage();
    there_and_back();
}

/* a full record that grows at the right or at the left, asked now and then on its way; its letters go again from the left */
static void growing_word(const unsigned char *word, int left)
{
    guard_in_turn();
    followed_open(PLAIN, MOST);
    for (size_t i = 1; i <= 2 * MOST; i++) {
        if (i <= MOST) followed_join(left, word[left ? MOST - i : i - 1]);
        else followed_leave(1);
        if (i % STEP == 0) one_record();
        if (i % STEP == 1 && i > 1) changed(number);
    }
}

/* A record in which A, C and G have the last three rows of all: they join a full one whose last three letters leave, and stay when all
 * others leave. Behind them the word joins, and they leave: of a word of A and T with C for T, so that these rows come after its series. */
static void with_the_last_rows(const unsigned char *word)
{
    static const char singles[] = "ACG";
    guard_in_turn();
    followed_open(PLAIN, MOST);
    for (size_t i = 0; i < MOST; i++) followed_join(0, 'T');
    for (size_t i = 0; i < 3; i++) followed_leave(0);
    for (size_t i = 0; i < 3; i++) followed_join(0, (unsigned char)singles[i]);
    while (record.size > 3) followed_leave(1);
    for (size_t i = 0; i < 3; i++) {
        uint64_t found = mirror_find(record.store, record.length, (const uint8_t *)singles + i, 1);
        must("the row of a single letter", MOST - 1 + i, mirror_row_of(found));
    }
    while (record.size < MOST) followed_join(0, word[record.size] == 'T' ? 'C' : word[record.size]);
    one_record();
    for (size_t i = 0; i < 3; i++) followed_leave(1);
    one_record();
}

/* more places than a byte can number, in every way; full records in every way but behind others; full records that grow, and
 * such with the last rows */
static void long_words(void)
{
    static unsigned char word[MOST];
    for (int kind = 0; kind < KINDS; kind++) {
        choose_long_word(kind, word);
        for (int way = 0; way < WAYS; way++) long_word(word, 257 + (size_t)way, way);
        for (int way = 0; way < BEHIND_OTHERS; way++) long_word(word, MOST, way);
        for (int left = 0; left < 2; left++) growing_word(word, left);
        with_the_last_rows(word);
    }
}

int main(int argc, char **argv)
{
    random_seed(argc > 1 ? argv[1] : NULL, 20261122);
    asked.call = mirror_pieces;
    short_words(2, LONGEST_TRIED);
    short_words(3, 9);
    short_words(4, 6);
    for (unsigned i = 0; i < 400; i++) moving_record(i % 8 == 0 ? INVERTED : PLAIN, 1 + i % 4);
    long_words();
    must("a word with several cuttings into as few", 1, ties > 0);
    must("an end above 255", 1, wide > 0);
    must("rows that link to a higher one", 1, upward > 0);
    must("as many pieces as letters in a full record", MOST, most);
    printf("%lu words by every cutting, %lu of them with several as short; %lu records, %lu of them inverted, ", tried, ties, records, inverted);
    printf("with %lu pieces, at most %lu in one, and %lu changes of a letter: ", pieces, most, changes);
    printf("%lu rooms, %lu more too small and %lu stores that are not good refused\n", asked.lent, asked.refused, asked.damaged);
    return 0;
}

/* Where the mirror breaks, 02 (x), through the C boundary: the pair that find hands on beside its row or absence, in records of
 * both readings and turned ones, held against the program that tries each pair from the outside. Each repeat of a record is
 * found and breaks nowhere, and with the letter at each place replaced by each other one it breaks at that place, but for the
 * middle letter of a plain one; then noise, pieces that read alike and do not stand, and pieces longer than the record; then
 * pieces about the largest pair that an answer can tell, and of a million letters. No byte of the store or of the piece may
 * change, and a refusal hands on no pair. Usage: breaking [seed] */
#include "brute.h"
#include "guard.h"
#include "mirror.h"
#include "random.h"
#include <stdio.h>
#include <stdlib.h>
#include <string.h>

enum { MOST = 1024, SHORT = 40, LONG = 1000000, LARGEST = 65535, ABOUT = 131072, PIECE_SLOT = 0, STORE_SLOT };

static uint8_t *store, kept[MIRROR_STORE_SIZE(MOST)];
static const unsigned char *at_hand; /* the piece, of so many letters: */
static size_t asked, length, size;
static unsigned reading;
static const unsigned char *rule;
static unsigned char letters[MOST], word[LONG];
static unsigned long pieces, found, near, alike, longer, met[READINGS][4]; /* met: pairs 65,534 to 65,537 */

static void must(const char *what, uint64_t wanted, uint64_t got)
{
    if (wanted == got) return;
    printf("%s record %.*s (%zu letters), piece %.*s (%zu letters): %s: wanted %llu, got %llu\n", reading == PLAIN ? "plain" : "inverted",
           (int)(size < 60 ? size : 60), (char *)letters, size, (int)(asked < 60 ? asked : 60), (char *)at_hand, asked, what,
           (unsigned long long)wanted, (unsigned long long)got);
    exit(1);
}

/* ---- one piece */

/* what find answers beside the pair: 1 and a row that spells the piece where that is a repeat of the record, and else nothing */
static void row_or_absence(uint64_t answer, const unsigned char *w, size_t n, int stands)
{
    uint8_t spelt[MOST];
    must("refusal", 0, mirror_refusal(answer));
    must("found", (uint64_t)stands, mirror_flag(answer));
    must("the second number", 0, mirror_second(answer));
    if (!stands) {
        must("the row of an absent piece", 0, mirror_row_of(answer));
        return;
    }
    must("letters spelt", (uint64_t)n << 32, mirror_spell(store, length, mirror_row_of(answer), spelt, n));
    must("spelling", 0, memcmp(spelt, w, n) != 0);
}

/* asks for the piece and tells at which pair it breaks, 0 for none */
static size_t ask(const unsigned char *w, size_t n)
{
    size_t pair = brute_mismatch(rule, w, n);
    int stands = pair == 0 && brute_first(w, n, letters, size) <= size;
    uint8_t *piece = guarded(PIECE_SLOT, w, n);
    at_hand = w, asked = n;
    uint64_t answer = mirror_find(store, length, piece, n);
    must("the pair that breaks", pair < LARGEST ? pair : LARGEST, mirror_first(answer));
    row_or_absence(answer, w, n, stands);
    must("a byte of the piece changed", 0, memcmp(piece, w, n) != 0);
    must("a byte of the store changed", 0, memcmp(store, kept, length) != 0);
    pieces++;
    found += (unsigned)stands;
    alike += pair == 0 && !stands;
    longer += n > size;
    if (pair >= LARGEST - 1 && pair <= LARGEST + 2) met[reading][pair - (LARGEST - 1)]++;
    return pair;
}

static unsigned char some_letter(unsigned alphabet)
{
    return (unsigned char)"ATCG"[random_below(alphabet)]; /* of two letters the second is the first one's partner */
}

static unsigned char another(unsigned char letter)
{
    unsigned char other;
    while ((other = some_letter(4)) == letter) continue;
    return other;
}

/* n letters of which each pair agrees; the middle one of an odd number, which faces itself, may be any */
static void make_alike(unsigned char *w, size_t n, unsigned alphabet)
{
    for (size_t i = 0; i < n - n / 2; i++) {
        w[i] = some_letter(alphabet);
        if (i < n / 2) w[n - 1 - i] = rule[w[i]];
    }
}

/* where n letters break that read alike but for one letter of a pair, 0 for none: in a plain record a middle letter agrees with
 * itself whatever it is, in an inverted one it never does */
static size_t meant(size_t n, size_t pair)
{
    size_t middle = n % 2 ? n / 2 + 1 : 0;
    if (pair == 0 || pair == middle) return reading == PLAIN ? 0 : middle;
    return pair;
}

/* a piece that reads alike but for the left or the right letter of one pair; 0 changes none */
static void ask_broken(size_t n, size_t pair, int right)
{
    make_alike(word, n, 4);
    size_t at = right ? n - pair : pair - 1;
    if (pair > 0) word[at] = another(word[at]);
    must("a pair that was changed breaks", meant(n, pair), ask(word, n));
}

/* ---- records */

/* opens a record and adds the letters, at either end */
static void record(unsigned read_so, const unsigned char *w, size_t n, size_t capacity)
{
    size_t left = random_below((unsigned)n + 1), right = left;
    reading = read_so;
    rule = brute_rule(reading);
    length = MIRROR_STORE_SIZE(capacity);
    store = guard_room(STORE_SLOT, length);
    memset(store, 0xee, length);
    must("open", 0, (reading == PLAIN ? mirror_open : mirror_open_inverted)(store, length, capacity));
    while (left > 0) must("addition", 0, mirror_refusal(mirror_add_left(store, length, w[--left])));
    while (right < n) must("addition", 0, mirror_refusal(mirror_add_right(store, length, w[right++])));
    memcpy(letters, w, size = n);
    memcpy(kept, store, length);
}

static void turn(void)
{
    reading = reading == PLAIN ? INVERTED : PLAIN;
    rule = brute_rule(reading);
    must("turn", 0, (reading == PLAIN ? mirror_turn_plain : mirror_turn_inverted)(store, length));
    memcpy(kept, store, length);
}

/* a repeat, and the same with each other letter at each place in turn */
static void ask_near(const unsigned char *w, size_t n)
{
    must("a repeat breaks nowhere", 0, ask(w, n));
    memcpy(word, w, n);
    for (size_t at = 0; at < n; at++) {
        for (const char *c = "ACGT"; *c; c++) {
            word[at] = (unsigned char)*c;
            if (word[at] == w[at]) continue;
            must("a repeat breaks where it was changed", meant(n, at < n / 2 ? at + 1 : n - at), ask(word, n));
            near++;
        }
        word[at] = w[at];
    }
}

/* letters of no order, from one to a few more than the record has, and such that a later pair breaks */
static void ask_noise(unsigned alphabet)
{
    for (int i = 0; i < 40; i++) {
        size_t n = 1 + random_below((unsigned)size + 6);
        for (size_t k = 0; k < n; k++) word[k] = some_letter(alphabet);
        ask(word, n);
        make_alike(word, n, alphabet);
        ask(word, n);
        word[random_below((unsigned)n)] = some_letter(4);
        word[random_below((unsigned)n)] = some_letter(4);
        ask(word, n);
    }
}

/* one letter more than the record has, a few more, and twice as many, broken at each pair in turn and at none */
static void ask_longer(void)
{
    size_t lengths[] = {size + 1, size + 2, 2 * size + 1, 2 * size + 2};
    for (size_t i = 0; i < sizeof lengths / sizeof lengths[0]; i++)
        for (size_t pair = 0; 2 * pair <= lengths[i] + 1; pair++) ask_broken(lengths[i], pair, (int)random_below(2));
}

/* everything about one record, in the reading in force */
static void ask_all(unsigned alphabet)
{
    static stretch repeats[MOST];
    size_t n = brute_list(rule, letters, size, repeats);
    for (size_t i = 0; i < n; i++) ask_near(letters + repeats[i].start, repeats[i].end - repeats[i].start);
    for (size_t i = 0; i < size; i++) ask(letters + i, 1 + random_below((unsigned)(size - i)));
    if (size > 0) ask(letters, size);
    ask_noise(alphabet);
    ask_longer();
}

/* records of 0 to 40 letters, of no order and such that each pair agrees, each in both readings */
static void short_records(unsigned opened)
{
    unsigned char w[SHORT];
    for (size_t i = 0; i <= 2 * SHORT; i++) {
        size_t n = i / 2;
        unsigned alphabet = 1 + random_below(4);
        rule = brute_rule(opened);
        make_alike(w, n, alphabet);
        for (size_t k = 0; i % 2 && k < n; k++) w[k] = some_letter(alphabet);
        record(opened, w, n, n + 1 + random_below(3));
        ask_all(alphabet);
        turn();
        ask_all(alphabet);
    }
}

/* ---- long pieces */

/* the last four pairs of pieces about 131,072 letters, a letter on either side changed, and such that read alike */
static void about_the_largest(void)
{
    for (size_t n = ABOUT - 2; n <= ABOUT + 2; n++) {
        ask_broken(n, 0, 0);
        for (size_t pair = (n + 1) / 2; pair + 4 > (n + 1) / 2; pair--)
            for (int right = 0; right < 2; right++) ask_broken(n, pair, right);
    }
}

/* a million letters that break at the first pair, at the last, and nowhere; and one fewer */
static void a_million(void)
{
    for (size_t n = LONG; n >= LONG - 1; n--) {
        ask_broken(n, 1, 0);
        ask_broken(n, n / 2, 1);
        ask_broken(n, (n + 1) / 2, 0);
        ask_broken(n, 0, 0);
    }
}

/* long pieces are longer than any record: they are asked for in an empty one and in a full one, in both readings */
static void long_pieces(unsigned opened)
{
    unsigned char w[MOST];
    rule = brute_rule(opened);
    make_alike(w, MOST, 4);
    record(opened, w, 0, 1);
    about_the_largest();
    record(opened, w, MOST, MOST);
    must("a repeat of all letters breaks nowhere", 0, ask(w, MOST));
    about_the_largest();
    a_million();
    turn();
    about_the_largest();
}

/* ---- refusals hand on no pair, wherever the piece breaks */

static uint64_t answer_for(const char *piece, size_t n)
{
    at_hand = (const unsigned char *)piece, asked = n;
    return mirror_find(store, length, guarded(PIECE_SLOT, (const unsigned char *)piece, n), n);
}

static void refusals(unsigned opened)
{
    record(opened, (const unsigned char *)"ACCA", 4, 4);
    must("no piece", MIRROR_NO_PIECE, answer_for("", 0));
    must("a piece with an N", MIRROR_NO_LETTER, answer_for("ACNG", 4));
    must("a longer piece with an N", MIRROR_NO_LETTER, answer_for("ACCGGN", 6));
    memset(word, 'A', LONG);
    word[0] = 'C';
    word[LONG / 2] = 'a';
    must("a million letters and a small one", MIRROR_NO_LETTER, answer_for((const char *)word, LONG));
    must("a byte of the store changed", 0, memcmp(store, kept, length) != 0);
    store[0]++;
    must("a store that is not good", MIRROR_DAMAGED, answer_for("CCAC", 4));
    must("a store that is not good, and no piece", MIRROR_DAMAGED, answer_for("", 0));
}

int main(int argc, char **argv)
{
    random_seed(argc > 1 ? argv[1] : NULL, 20261118);
    for (int place = GUARD_AFTER; place <= GUARD_BEFORE; place++) {
        guard_at((guard_place)place);
        for (unsigned opened = PLAIN; opened < READINGS; opened++) {
            short_records(opened);
            long_pieces(opened);
            refusals(opened);
        }
    }
    printf("pairs 65,534 to 65,537 broke");
    for (reading = PLAIN; reading < READINGS; reading++)
        for (int i = 0; i < 4; i++) {
            must("pieces that break about the largest pair", 1, met[reading][i] > 0);
            printf(" %lu", met[reading][i]);
        }
    printf(" times; %lu pieces: %lu found, %lu repeats but for one letter, %lu that read alike and are absent, %lu longer than their record\n", pieces,
           found, near, alike, longer);
    return 0;
}

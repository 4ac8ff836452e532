/* How much searching an appended record costs, 02 (xiii), through the C boundary: what each addition at the right of a plain
 * record reports is held against the definition, by trying every stretch, and the sum against 2n - 1. Structured and random
 * words to full length, with questions, refused calls and a turn to the reading in force between the letters; then every word
 * of up to eight letters, which finds those that reach the bound; then a family of such words to full length. Removals and
 * additions at the left break the premise, and the lists that show it must exceed the bound. Usage: appending [seed] */
#include "brute.h"
#include "mirror.h"
#include "random.h"
#include <stdio.h>
#include <stdlib.h>
#include <string.h>

enum { MOST = 1024, SHORT = 8 };

static uint8_t store[MIRROR_STORE_SIZE(MOST)];
static unsigned char letters[MOST];
static size_t size, sum;
static unsigned long compared;

static void must(const char *what, uint64_t wanted, uint64_t got)
{
    compared++;
    if (wanted == got) return;
    printf("%.*s: %s: wanted %llu, got %llu\n", (int)(size < 60 ? size : 60), (char *)letters, what, (unsigned long long)wanted, (unsigned long long)got);
    exit(1);
}

static void open_empty(size_t capacity)
{
    size = sum = 0;
    must("open", 0, mirror_open(store, sizeof store, capacity));
}

/* a letter at the right: it reports what the definition counts, and the sum stays within the bound */
static void take(unsigned char letter)
{
    size_t steps = brute_steps(brute_rule(PLAIN), letters, size, letter);
    uint64_t answer = mirror_add_right(store, sizeof store, letter);
    must("addition", 0, mirror_refusal(answer));
    must("what it reports", steps, mirror_first(answer));
    must("the second number", 0, mirror_second(answer));
    letters[size++] = letter;
    sum += mirror_first(answer);
    must("the sum is at most 2n - 1", 1, sum <= 2 * size - 1);
}

/* calls that leave the record as it is: none reports anything of a search */
static void between(void)
{
    switch (random_below(8)) {
    case 0: must("N", MIRROR_NO_LETTER, mirror_add_right(store, sizeof store, 'N')); break;
    case 1: must("a small letter at the left", MIRROR_NO_LETTER, mirror_add_left(store, sizeof store, 'a')); break;
    case 2: must("an opening for no letters", MIRROR_CAPACITY, mirror_open(store, sizeof store, 0)); break;
    case 3: must("a store too short", MIRROR_DAMAGED, mirror_add_right(store, 100, 'A')); break;
    case 4: must("a turn to the reading in force", 0, mirror_turn_plain(store, sizeof store)); break;
    case 5: must("length", (uint64_t)size << 32, mirror_length(store, sizeof store)); break;
    case 6: must("count", 0, mirror_refusal(mirror_count(store, sizeof store))); break;
    default: break;
    }
}

/* ---- long words */

enum { ALL_A, PAIRS, FIBONACCI, THUE_MORSE, SQUARES, RANDOM, WORDS };

static unsigned char letter_of(int word, unsigned i, unsigned alphabet)
{
    static char fibonacci[2 * MOST] = "AC";
    for (size_t last = 1, now = 2, next; word == FIBONACCI && now <= MOST; last = now, now = next) {
        next = now + last;
        memcpy(fibonacci + now, fibonacci, last);
    }
    unsigned root = 0;
    while ((root + 1) * (root + 1) <= i) root++;
    switch (word) {
    case ALL_A: return 'A';
    case PAIRS: return (unsigned char)"AC"[i % 2];
    case FIBONACCI: return (unsigned char)fibonacci[i];
    case THUE_MORSE: return (unsigned char)"AC"[__builtin_popcount(i) % 2];
    case SQUARES: return (unsigned char)(root * root == i ? "CG"[root % 2] : 'A'); /* runs of A of every length, each stopped */
    default: return (unsigned char)"ACGT"[random_below(alphabet)];
    }
}

static void long_words(void)
{
    for (int word = 0; word < WORDS; word++)
        for (unsigned alphabet = 1; alphabet <= (word == RANDOM ? 4 : 1); alphabet++) {
            open_empty(MOST);
            for (unsigned i = 0; i < MOST; i++) {
                between();
                take(letter_of(word, i, alphabet));
            }
            must("full", MIRROR_FULL, mirror_add_right(store, sizeof store, 'A'));
        }
}

/* ---- words that reach the bound */

/* every word of up to SHORT letters: how many of each length have the sum 2n - 1 */
static void short_words(unsigned long *reach)
{
    for (size_t n = 1; n <= SHORT; n++)
        for (unsigned long code = 0; code < 1ul << (2 * n); code++) {
            open_empty(SHORT);
            for (size_t i = 0; i < n; i++) take((unsigned char)"ACGT"[code >> (2 * i) & 3]);
            reach[n] += sum == 2 * n - 1;
        }
}

/* the search finds AA..AC for every length: it reaches the bound up to full length */
static void stopped_runs(void)
{
    for (size_t n = 2; n <= MOST; n += n < 40 ? 1 : 123) {
        open_empty(MOST);
        while (size < n - 1) take('A');
        take('C');
        must("AA..AC reaches 2n - 1", 2 * n - 1, sum);
    }
}

/* ---- where the premise is broken */

static void broken(void)
{
    open_empty(8);
    take('A'), take('A'), take('C');
    must("AAC reports 5", 5, sum);
    must("C goes", 0, mirror_refusal(mirror_remove_right(store, sizeof store)));
    uint64_t again = mirror_first(mirror_add_right(store, sizeof store, 'C'));
    must("with a removal, four letters report 8, over 7", 8, sum + again);

    /* 001, section 3.2: a third of the calls add A, the others add another letter and remove it, again and again */
    enum { THIRD = 341 };
    open_empty(MOST);
    while (size < THIRD) take('A');
    for (int i = 0; i < THIRD; i++) {
        sum += mirror_first(mirror_add_right(store, sizeof store, 'C'));
        must("C goes again", 0, mirror_refusal(mirror_remove_right(store, sizeof store)));
    }
    must("the sum is quadratic", THIRD + THIRD * (THIRD + 1), sum);

    open_empty(8);
    take('A');
    must("A at the left reports 0", 0, mirror_first(mirror_add_left(store, sizeof store, 'A')));
    must("then C at the right: two letters report 4, over 3", 4, sum + mirror_first(mirror_add_right(store, sizeof store, 'C')));
}

int main(int argc, char **argv)
{
    unsigned long reach[SHORT + 1] = {0};
    random_seed(argc > 1 ? argv[1] : NULL, 20261116);
    long_words();
    short_words(reach);
    stopped_runs();
    broken();
    printf("words of n letters that reach 2n - 1:");
    for (size_t n = 1; n <= SHORT; n++) {
        must("some word reaches the bound", 1, reach[n] > 0);
        printf(" %lu", reach[n]);
    }
    printf("; %lu facts\n", compared);
    return 0;
}

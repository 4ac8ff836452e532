/* Long sittings through the C boundary: every call, every answer, every lent byte, at small and large capacities, first
 * with buffers that end at a guard page and then with buffers that begin right after one. Random sittings, then
 * structured records that grow at one end or at both, up to full length, and shrink again, and such that grow at one end while
 * they shrink at the other; all of it on plain records and on inverted ones, with and without turns to the other reading.
 * Removals must be seen to lower the longest length in every way that there is, and rows that were taken again to link to higher
 * ones. Usage: sittings [seed [sittings]] */
#include "guard.h"
#include "model.h"
#include "random.h"
#include <stdio.h>
#include <stdlib.h>
#include <string.h>

enum { ALL_A, AT, FIBONACCI, THUE_MORSE, RANDOM, WORDS };

/* the Fibonacci word over A and T or, for an inverted record, over AT and CG: each has about as many repeats as letters */
static const char *fibonacci(unsigned reading)
{
    static char words[READINGS][2 * MODEL_MOST];
    char *word = words[reading];
    size_t last = reading == PLAIN ? 1 : 2, now = 2 * last;
    if (word[0]) return word;
    memcpy(word, reading == PLAIN ? "AT" : "ATCG", now);
    while (now <= MODEL_MOST) {
        size_t next = now + last;
        memcpy(word + now, word, last);
        last = now;
        now = next;
    }
    return word;
}

/* letter i of a structured word; all but the first have repeats in either reading */
static unsigned letter_of(unsigned reading, int word, unsigned i)
{
    switch (word) {
    case ALL_A: return 'A';
    case AT: return (unsigned char)"AT"[i % 2];
    case THUE_MORSE: return (unsigned char)"CG"[__builtin_popcount(i) % 2];
    case RANDOM: return (unsigned char)"ACGT"[random_below(4)];
    default: return (unsigned char)fibonacci(reading)[i];
    }
}

/* numbers that are no letters; some would be one if they were narrowed to a byte */
static const uint64_t no_letters[] = {'N', 'U', 'a', 'c', 'g', 't', 0, 255, 'A' + 256, 'T' + 65536, 'C' + (1ull << 32), 'G' + (1ull << 63)};

/* an addition, now and then of no letter or undone at once, or a removal; the letters are the first ones of ATCG, so that two
 * of them are partners, and some join as a pair around the whole record */
static void random_change(unsigned alphabet, unsigned removing)
{
    unsigned what = random_below(100);
    int left = (int)random_below(2);
    unsigned char letter = (unsigned char)"ATCG"[random_below(alphabet)];
    if (what < 4) model_add(left, no_letters[random_below(sizeof no_letters / sizeof no_letters[0])], 0);
    else if (what < 10) model_add(left, letter, 1);
    else if (what < 10 + removing) model_remove(left);
    else model_add(left, letter, 0);
    if (what > 90) model_add(!left, brute_rule(model_reading())[letter], 0);
}

/* about half of the sittings turn now and then, to either reading; the others keep the one that they were opened in */
static void random_sitting(unsigned reading, size_t capacity, unsigned steps, unsigned alphabet, unsigned removing)
{
    unsigned turning = 12 * random_below(2);
    model_open(reading, capacity, random_below(3) * 25); /* 50 bytes more would do for one letter more */
    model_ask();
    for (unsigned i = 0; i < steps; i++) {
        if (random_below(100) < turning) model_turn(random_below(READINGS));
        else random_change(alphabet, removing);
        if (model_length() <= 48 || i % 64 == 63) model_ask();
    }
    model_ask();
}

/* to the other reading; before and after that to the one in force, which must change nothing */
static void turn_over(void)
{
    unsigned to = model_reading() == PLAIN ? INVERTED : PLAIN;
    model_turn(model_reading());
    model_turn(to);
    model_turn(to);
}

/* a sitting that turns does so where the record is empty, has one letter, is half full and is full */
static void turn_at_some_lengths(int turning, size_t capacity)
{
    size_t n = model_length();
    if (turning && (n == 0 || n == 1 || n == capacity / 2 || n == capacity)) turn_over();
}

/* a word added until the record is full, at the right (0), at the left (1) or at both (2), then taken away */
static void structured_sitting(unsigned reading, int word, size_t capacity, unsigned ends, int turning)
{
    model_open(reading, capacity, 5);
    turn_at_some_lengths(turning, capacity);
    for (unsigned i = 0; i < capacity + 2; i++) {
        int left = ends == 1 || (ends == 2 && i % 3 == 0);
        model_add(left, letter_of(reading, word, i), i % 16 == 0);
        if (i % 16 == 0) model_add(left, letter_of(reading, word, i), 0);
        turn_at_some_lengths(turning, capacity);
        if (capacity < 40 || i == capacity / 2) model_ask();
    }
    model_ask();
    for (unsigned i = 0; model_length() > 0; i++) {
        model_remove(ends == 2 ? i % 2 == 0 : ends == 0);
        turn_at_some_lengths(turning, capacity);
        if (capacity < 40 || i == capacity / 2) model_ask();
    }
    model_remove(0);
    model_ask();
}

/* a record that moves on: letters join at the one end and, once it is full, leave at the other, so that rows are taken again */
static void moving_sitting(unsigned reading, int word, size_t capacity, int to_the_left)
{
    model_open(reading, capacity, 5);
    for (unsigned i = 0; i < 5 * capacity; i++) {
        if (model_length() == capacity) model_remove(!to_the_left);
        model_add(to_the_left, letter_of(reading, word, i), 0);
        model_ask();
    }
}

static void run(unsigned reading, int sittings)
{
    static const size_t capacities[] = {1, 2, 3, 4, 7, 16, 33};
    for (int i = 0; i < sittings; i++) {
        size_t capacity = i % 4 == 0 ? 1 + random_below(3) : i % 4 == 1 ? 4 + random_below(12) : i % 4 == 2 ? 8 + random_below(60) : 200 + random_below(825);
        random_sitting(reading, capacity, 60 + random_below(capacity < 100 ? 300 : 60), 1 + random_below(4), 10 + random_below(50));
    }
    for (int word = 0; word < WORDS; word++)
        for (unsigned k = 0; k < sizeof capacities / sizeof capacities[0]; k++) {
            for (unsigned ends = 0; ends < 3; ends++) structured_sitting(reading, word, capacities[k], ends, 0);
            structured_sitting(reading, word, capacities[k], ((unsigned)word + k) % 3, 1);
            moving_sitting(reading, word, capacities[k], (word + (int)k) % 2);
        }
}

/* full length: every word, in the first place added at one end and taken away at the other, in the second the other way round
 * or at both ends; and one word with turns */
static void run_full(unsigned reading, int place)
{
    for (int word = 0; word < WORDS; word++) structured_sitting(reading, word, MODEL_MOST, (unsigned)(word + place) % 3, 0);
    int turned = AT + 2 * place + (int)reading;
    structured_sitting(reading, turned, MODEL_MOST, (unsigned)turned % 3, 1);
}

/* 0, 1 and 2 in plain records; 0 and 2 in inverted ones */
static int every_fall(void)
{
    const unsigned long *plain = model_falls[PLAIN], *inverted = model_falls[INVERTED];
    printf("removals lowered the longest length by 0, 1 and 2: %lu, %lu and %lu of plain records, %lu, %lu and %lu of inverted ones\n", plain[0], plain[1],
           plain[2], inverted[0], inverted[1], inverted[2]);
    return plain[0] && plain[1] && plain[2] && inverted[0] && inverted[2];
}

/* a repeat comes after the one that it links to, so only a row that was taken again links to a higher one */
static int links_upward(void)
{
    printf("rows that link to higher ones were counted at all places: %lu in plain records, %lu in inverted ones\n", model_upward[PLAIN], model_upward[INVERTED]);
    return model_upward[PLAIN] && model_upward[INVERTED];
}

int main(int argc, char **argv)
{
    int sittings = argc > 2 ? atoi(argv[2]) : 24;
    random_seed(argc > 1 ? argv[1] : NULL, 20251115);
    for (int place = GUARD_AFTER; place <= GUARD_BEFORE; place++) {
        guard_at((guard_place)place);
        for (unsigned reading = PLAIN; reading < READINGS; reading++) {
            run(reading, sittings);
            run_full(reading, place);
        }
    }
    if (!every_fall() || !links_upward()) return 1;
    printf("%lu sittings, %lu changes, %lu turns to the other reading, %lu facts\n", model_sittings, model_calls, model_turns, model_facts);
    return 0;
}

#include "words.h"
#include "brute.h"
#include "followed.h"
#include "random.h"
#include <string.h>

/* the Fibonacci word over A and T or, for an inverted record, over AT and CG: each has about as many repeats as letters */
static void fibonacci(unsigned reading, unsigned char *word)
{
    size_t last = reading == PLAIN ? 1 : 2, now = 2 * last;
    memcpy(word, reading == PLAIN ? "AT" : "ATCG", now);
    while (now < WORD_LENGTH) {
        size_t more = last < WORD_LENGTH - now ? last : WORD_LENGTH - now;
        memcpy(word + now, word, more);
        last = now;
        now += more;
    }
}

static unsigned char letter_of(int kind, size_t i)
{
    switch (kind) {
    case ALL_A: return 'A';
    case PAIRS: return (unsigned char)"AT"[i % 2];
    case THUE_MORSE: return (unsigned char)"CG"[__builtin_parityl(i)];
    default: return (unsigned char)"ATCG"[random_below(kind == TWO_KINDS ? 2 : 4)];
    }
}

void choose_word(int kind, unsigned reading, unsigned char *word)
{
    for (size_t i = 0; kind != FIBONACCI && i < WORD_LENGTH; i++) word[i] = letter_of(kind, i);
    if (kind == FIBONACCI) fibonacci(reading, word);
}

void make_record(unsigned reading, const unsigned char *word, size_t n, int way)
{
    static const unsigned char others[] = "GCGCT";
    size_t before = way == BEHIND_OTHERS ? sizeof others - 1 : 0, room = n + before < WORD_LENGTH ? n + before + 1 : WORD_LENGTH;
    size_t left = way == AT_THE_LEFT ? n : way == AT_BOTH_ENDS ? n / 2 : 0, right = left;
    followed_open(way == TURNED ? !reading : reading, room);
    for (size_t i = 0; i < before; i++) followed_join(0, others[i]);
    while (left > 0 || right < n) {
        int at_left = right == n || (left > 0 && (left + right) % 2);
        followed_join(at_left, word[at_left ? --left : right++]);
    }
    for (size_t i = 0; i < before; i++) followed_leave(1);
    if (way == TURNED) followed_turn();
}

#include "second_uncertain.h"
#include <string.h>

/* the codes as the paper has them, in either case */
static const struct { const char *cases, *bases; } codes[] = {
    {"Aa", "A"}, {"Cc", "C"}, {"Gg", "G"}, {"Tt", "T"}, {"Rr", "AG"}, {"Yy", "CT"}, {"Mm", "AC"}, {"Kk", "GT"},
    {"Ss", "CG"}, {"Ww", "AT"}, {"Bb", "CGT"}, {"Dd", "AGT"}, {"Hh", "ACT"}, {"Vv", "ACG"}, {"Nn", "ACGT"}};

enum { CODES = sizeof codes / sizeof codes[0] };

/* the number of a byte's code, CODES where it is none */
static size_t code_of(uint8_t byte)
{
    size_t i = 0;
    while (i < CODES && byte != codes[i].cases[0] && byte != codes[i].cases[1]) i++;
    return i;
}

const char *second_bases(uint8_t byte)
{
    size_t code = code_of(byte);
    return code < CODES ? codes[code].bases : NULL;
}

unsigned second_refusal(const uint8_t *text, size_t length)
{
    if (length > MOST_CODES) return 5;
    for (size_t i = 0; i < length; i++)
        if (second_bases(text[i]) == NULL) return 4;
    return 0;
}

/* ---- by every choice */

/* whether each letter is the one that stands there in the reversal */
static int is_its_reversal(const char *word, size_t n)
{
    for (size_t i = 0; i < n; i++)
        if (word[i] != word[n - 1 - i]) return 0;
    return 1;
}

/* puts the next base at the first place that has one left, and the first base at those before it; 0 where no choice is left */
static int next_choice(const char **chosen, const uint8_t *text, size_t n)
{
    for (size_t i = 0; i < n; i++) {
        if (*++chosen[i]) return 1;
        chosen[i] = second_bases(text[i]);
    }
    return 0;
}

/* by start and length */
typedef unsigned char marks[MOST_CHOSEN][MOST_CHOSEN + 1];

static second_stretch longest_marked(const marks of, size_t n)
{
    for (size_t length = n; length > 0; length--)
        for (size_t start = 0; start + length <= n; start++)
            if (of[start][length]) return (second_stretch){start, length};
    return (second_stretch){0, 0};
}

second_longest second_by_choices(const uint8_t *text, size_t n)
{
    marks ever, always;
    const char *chosen[MOST_CHOSEN];
    char word[MOST_CHOSEN];
    memset(ever, 0, sizeof ever);
    memset(always, 1, sizeof always);
    for (size_t i = 0; i < n; i++) chosen[i] = second_bases(text[i]);
    do {
        for (size_t i = 0; i < n; i++) word[i] = *chosen[i];
        for (size_t start = 0; start < n; start++)
            for (size_t length = 1; start + length <= n; length++) {
                if (is_its_reversal(word + start, length)) ever[start][length] = 1;
                else always[start][length] = 0;
            }
    } while (next_choice(chosen, text, n));
    return (second_longest){longest_marked(ever, n), longest_marked(always, n)};
}

/* ---- by every stretch */

/* whether bases chosen from these two lists are the same, for every choice or for some */
static int agree(const char *one, const char *other, int every)
{
    for (const char *a = one; *a; a++)
        for (const char *b = other; *b; b++)
            if ((*a == *b) != every) return !every;
    return every;
}

/* the same of all codes, for some choice and for every one */
static unsigned char agreed[2][CODES][CODES];

static void agree_once(void)
{
    static int made;
    for (size_t i = 0; i < CODES && !made; i++)
        for (size_t k = 0; k < CODES; k++)
            for (int every = 0; every < 2; every++) agreed[every][i][k] = (unsigned char)agree(codes[i].bases, codes[k].bases, every);
    made = 1;
}

/* A stretch serves where the one within it does and its two outer places agree; a single place agrees with itself, whatever is
 * chosen there. From each place a mark says whether the stretch of the last odd, and the last even, length that begins there serves.
 * Where none of two lengths in turn does, no longer one can. */
static second_stretch longest_serving(const uint8_t *text, size_t n, int every)
{
    static unsigned char code[MOST_CODES], serves[2][MOST_CODES + 1];
    second_stretch longest = {0, 0};
    for (size_t i = 0; i < n; i++) code[i] = (unsigned char)code_of(text[i]);
    memset(serves, 1, sizeof serves);
    for (size_t length = 1; length <= n && length <= longest.length + 2; length++) {
        unsigned char *mark = serves[length % 2];
        for (size_t start = 0; start + length <= n; start++) {
            if (length > 1) mark[start] = mark[start + 1] && agreed[every][code[start]][code[start + length - 1]];
            if (mark[start] && length > longest.length) longest = (second_stretch){start, length};
        }
    }
    return longest;
}

second_longest second_by_stretches(const uint8_t *text, size_t n)
{
    agree_once();
    return (second_longest){longest_serving(text, n, 0), longest_serving(text, n, 1)};
}

/* ---- answers */

uint64_t second_answer(second_longest of)
{
    return (uint64_t)of.some.length << 32 | (uint64_t)of.every.length << 48;
}

uint64_t second_uncertain(const uint8_t *text, size_t length)
{
    unsigned refusal = second_refusal(text, length);
    return refusal ? refusal : second_answer(second_by_stretches(text, length));
}

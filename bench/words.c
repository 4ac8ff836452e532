/* Random DNA has few palindromes and short link chains; all-A, (AC)* and the Fibonacci word have as many palindromes
 * as letters and long chains; the Thue-Morse word lies between.
 *
 * An inverted record of 1,000 letters is timed beside a plain one that has as many rows, within 2 in 100, so that the
 * reading is all that differs. Rows, plain and inverted, as trying every stretch counts them:
 *
 *     few, random      43, 43       random DNA has 116 rows in the plain reading and 43 in the inverted one; beside it
 *                                   stands a plain word with 43 and, as it has, none longer than 8 letters
 *     all-A, (AT)*     1000, 999    where each letter is followed by its partner, a palindrome becomes an inverted repeat
 *     (AC)*, (ATCG)*   1000, 998    of twice its length, and that without its outer letters is one too: as many repeats
 *     Fibonacci        1000, 998    as letters again. The Fibonacci word is taken from the place on at which the longest
 *                                   is as long as in the plain record, 985 and 984 letters, since spell and find get it
 *     Thue-Morse       788, 788     over A and T, from a place on that gives the number of rows. No place gives that and
 *                                   the longest repeat's length, 976 and 512: spell and find have less to do here
 *
 * Turns are timed on records of either reading for all of these words but `few`. In the reading that they are not made for,
 * those over A or A and C have no row at all, since no letter meets its partner; (AT)* and Thue-Morse over A and T have 1000
 * and 788, (ATCG)* and the Fibonacci word with partners 4 and 6.
 *
 * GTA..A is for pieces: at each of its ends as many palindromes end as A stand before it, and none leaves so little to cut that the
 * others need not be tried. So to try them all, or to stop where nothing can be better, takes n times n steps.
 *
 * A..ACA..A is for marks, with the C in the middle: the mirror image of a stretch of A behind the C stands before it, where a longer
 * stretch of A ends at the same place, so that the way to its row is long. Of all places of the C those about the middle make the
 * ways of all stretches longest together. */
#include "words.h"

#include <string.h>

#include "cells.h"

const char *const word_names[ALL_WORDS] = {"random", "all-A", "(AC)*", "Fibonacci", "Thue-Morse",
                                           "random", "(AT)*", "(ATCG)*", "Fibonacci", "Thue-Morse", "few", "GTA..A",
                                           "A..ACA..A"};

uint32_t next_random(uint32_t *state)
{
    *state ^= *state << 13;
    *state ^= *state >> 17;
    *state ^= *state << 5;
    return *state;
}

static void fibonacci(uint8_t *out, size_t n)
{
    size_t shorter = 1, whole = 2;
    for (size_t i = 0; i < n && i < 2; i++)
        out[i] = i == 0 ? 'A' : 'C';
    while (whole < n) {
        for (size_t i = 0; i < shorter && whole + i < n; i++)
            out[whole + i] = out[i];
        size_t longer = whole + shorter;
        shorter = whole;
        whole = longer;
    }
}

static void random_letters(uint8_t *out, size_t n)
{
    uint32_t seed = 20250101;
    for (size_t i = 0; i < n; i++)
        out[i] = (uint8_t)"ACGT"[next_random(&seed) >> 30];
}

/* Random letters with few palindromes: one that would end a palindrome of two or three is drawn again, up to three times. */
static void few_palindromes(uint8_t *out, size_t n)
{
    uint32_t seed = 20250127;
    for (size_t i = 0; i < n; i++)
        for (int draws = 0; draws < 4; draws++) {
            out[i] = (uint8_t)"ACGT"[next_random(&seed) >> 30];
            if ((i < 1 || out[i] != out[i - 1]) && (i < 2 || out[i] != out[i - 2]))
                break;
        }
}

static void repeated(const char *period, size_t length, uint8_t *out, size_t n)
{
    for (size_t i = 0; i < n; i++)
        out[i] = (uint8_t)period[i % length];
}

/* G, T and nothing but A from there on. */
static void gta(uint8_t *out, size_t n)
{
    for (size_t i = 0; i < n; i++)
        out[i] = i < 2 ? (uint8_t)"GT"[i] : 'A';
}

/* Nothing but A and a C in the middle. */
static void aca(uint8_t *out, size_t n)
{
    for (size_t i = 0; i < n; i++)
        out[i] = i == n / 2 ? 'C' : 'A';
}

/* The Thue-Morse word over two letters, from a place on. */
static void thue_morse(const char *letters, size_t from, uint8_t *out, size_t n)
{
    for (size_t i = 0; i < n; i++)
        out[i] = (uint8_t)letters[__builtin_parityl(from + i)];
}

/* The Fibonacci word from a place on, each letter followed by its partner. */
static void fibonacci_with_partners(size_t from, uint8_t *out, size_t n)
{
    uint8_t letters[FASTA_MOST];
    fibonacci(letters, from + n / 2 + 1);
    for (size_t i = 0; i < n; i++) {
        uint8_t letter = letters[from + i / 2];
        out[i] = i % 2 ? partner_tables[INVERTED][letter] : letter;
    }
}

void make_word(int which, uint8_t *out, size_t n)
{
    switch (which) {
    case ALL_A: repeated("A", 1, out, n); break;
    case AC: repeated("AC", 2, out, n); break;
    case FIBONACCI: fibonacci(out, n); break;
    case THUE_MORSE: thue_morse("AC", 0, out, n); break;
    case WORDS + ALL_A: repeated("AT", 2, out, n); break;
    case WORDS + AC: repeated("ATCG", 4, out, n); break;
    case WORDS + FIBONACCI: fibonacci_with_partners(58, out, n); break;
    case WORDS + THUE_MORSE: thue_morse("AT", 64, out, n); break;
    case SPARSE: few_palindromes(out, n); break;
    case GTA: gta(out, n); break;
    case ACA: aca(out, n); break;
    default: random_letters(out, n);
    }
}

size_t make_fasta(int which, uint8_t *out, size_t n)
{
    uint8_t letters[FASTA_MOST];
    size_t length = 4;
    memcpy(out, ">e1\n", length);
    make_word(which, letters, n);
    for (size_t i = 0; i < n; i++) {
        out[length++] = letters[i];
        if (i % FASTA_LINE == FASTA_LINE - 1 || i == n - 1)
            out[length++] = '\n';
    }
    return length;
}

void mask_fasta(uint8_t *text, size_t length)
{
    uint32_t seed = 20261116; /* not that of the random word, whose letters would then decide their case */
    size_t i = 0;
    while (i < length && text[i] != '\n')
        i++;
    for (; i < length; i++)
        if (text[i] != '\n' && next_random(&seed) >> 31)
            text[i] |= 0x20;
}

/* The definitions, through the proved functions of the crate reference, against the program that tries every stretch:
 * every word of up to six letters over ACGT, then random and structured records, under the plain and the inverted rule
 * and under a third self-inverse rule (A with C, G and T by themselves); the frequencies of a record's palindromes add up to how
 * many end at its right ends. Where a word and its reversal disagree first is also held against a loop of its own, for tables of
 * partners of any length and content and words of any bytes. */
#include "brute.h"
#include <stdint.h>
#include <stdio.h>
#include <stdlib.h>
#include <string.h>

typedef const unsigned char *bytes;
uint64_t reference_first_mismatch(bytes, size_t, bytes, size_t);
uint64_t reference_is_symmetric(bytes, size_t, bytes, size_t);
uint64_t reference_is_palindrome(bytes, size_t, bytes, size_t);
uint64_t reference_frequency(bytes, size_t, bytes, size_t);
uint64_t reference_first_place(bytes, size_t, bytes, size_t);
uint64_t reference_stands(bytes, size_t, bytes, size_t);
uint64_t reference_stands_once(bytes, size_t, bytes, size_t);
uint64_t reference_longest_suffix(bytes, size_t, bytes, size_t);
uint64_t reference_longest_prefix(bytes, size_t, bytes, size_t);
uint64_t reference_link_length(bytes, size_t, bytes, size_t);
uint64_t reference_count(bytes, size_t, bytes, size_t);
uint64_t reference_nth_length(bytes, size_t, bytes, size_t, size_t);
uint64_t reference_nth_place(bytes, size_t, bytes, size_t, size_t);
uint64_t reference_longest_length(bytes, size_t, bytes, size_t);
uint64_t reference_longest_place(bytes, size_t, bytes, size_t);

static unsigned long compared;
static bytes rules[3];

static void same(const char *what, int rule, bytes s, size_t n, uint64_t wanted, uint64_t got)
{
    compared++;
    if (wanted == got) return;
    printf("%s, rule %d, %.*s: %llu by every stretch, %llu by the definitions\n", what, rule, (int)n, (const char *)s,
           (unsigned long long)wanted, (unsigned long long)got);
    exit(1);
}

static void record(int which, bytes s, size_t n)
{
    bytes rule = rules[which];
    static stretch list[2048];
    size_t count = brute_list(rule, s, n, list), first, by_place = 0;
    stretch longest = brute_longest(rule, s, n);

    same("count", which, s, n, count, reference_count(rule, 256, s, n));
    same("longest length", which, s, n, longest.end - longest.start, reference_longest_length(rule, 256, s, n));
    same("longest place", which, s, n, longest.start, reference_longest_place(rule, 256, s, n));
    same("right end", which, s, n, brute_right(rule, s, n), reference_longest_suffix(rule, 256, s, n));
    same("left end", which, s, n, brute_left(rule, s, n), reference_longest_prefix(rule, 256, s, n));
    same("first mismatch", which, s, n, brute_mismatch(rule, s, n), reference_first_mismatch(rule, 256, s, n));
    same("palindrome", which, s, n, brute_palindrome(rule, s, n), reference_is_palindrome(rule, 256, s, n));
    for (size_t k = 0; k < count; k++) {
        bytes p = s + list[k].start;
        size_t m = list[k].end - list[k].start, places = brute_places(p, m, s, n, &first);
        same("length in the list", which, s, n, m, reference_nth_length(rule, 256, s, n, k));
        same("place in the list", which, s, n, list[k].start, reference_nth_place(rule, 256, s, n, k));
        same("link", which, p, m, brute_link(rule, p, m), reference_link_length(rule, 256, p, m));
        same("frequency", which, s, n, places, reference_frequency(p, m, s, n));
        by_place += reference_frequency(p, m, s, n);
        same("once only", which, s, n, places == 1, reference_stands_once(p, m, s, n));
        same("first place", which, s, n, first, reference_first_place(p, m, s, n));
    }
    same("all by place", which, s, n, brute_by_ends(rule, s, n), by_place);
    same("past the list", which, s, n, 0, reference_nth_length(rule, 256, s, n, count));
    /* a piece that need not stand, nor be a palindrome */
    unsigned char piece[3] = {"ACGT"[n % 4], "ACGT"[count % 4], "ACGT"[(n / 4) % 4]};
    same("stands", which, s, n, brute_places(piece, 3, s, n, &first) > 0, reference_stands(piece, 3, s, n));
    same("frequency of a piece", which, s, n, brute_places(piece, 3, s, n, &first), reference_frequency(piece, 3, s, n));
}

static uint64_t state;

static unsigned next(unsigned below)
{
    state ^= state << 13; state ^= state >> 7; state ^= state << 17;
    return (unsigned)((state >> 33) % below);
}

/* ---- tables of partners of any length and content */

static unsigned long in_either_half[2];

/* the first place, counted from 1, at which the word and its reversal by the table disagree, over all of its letters; a byte that
 * the table does not reach is its own partner */
static size_t disagrees(bytes table, size_t m, bytes w, size_t n)
{
    for (size_t i = 0; i < n; i++) {
        unsigned char facing = w[n - 1 - i];
        if (w[i] != (facing < m ? table[facing] : facing)) return i + 1;
    }
    return 0;
}

static void any_table(bytes table, size_t m, bytes w, size_t n)
{
    size_t first = disagrees(table, m, w, n);
    same("first mismatch by any table", 3, w, n, first, reference_first_mismatch(table, m, w, n));
    same("symmetric by any table", 3, w, n, first == 0, reference_is_symmetric(table, m, w, n));
    same("palindrome by any table", 3, w, n, first == 0 && n > 0, reference_is_palindrome(table, m, w, n));
    if (first > 0) in_either_half[first > n - n / 2]++;
}

/* Most tables do not undo themselves. Then a word whose left half is the image of its right half may still break in the right
 * half, where the left one's image is asked for; such words must come up. */
static void any_tables(int rounds)
{
    unsigned char table[300], w[64];
    for (int round = 0; round < rounds; round++) {
        size_t m = next(4) ? next(12) : next(301), n = next(65);
        unsigned bytes_in_use = next(4) ? 1 + next(8) : 256;
        for (size_t i = 0; i < m; i++) table[i] = (unsigned char)(next(4) ? next(bytes_in_use) : i);
        for (size_t i = 0; i < n; i++) w[i] = (unsigned char)next(bytes_in_use);
        any_table(table, m, w, n);
        for (size_t i = 0; i < n / 2; i++) w[i] = w[n - 1 - i] < m ? table[w[n - 1 - i]] : w[n - 1 - i];
        any_table(table, m, w, n);
        for (size_t i = 0; i < n; i++) w[i] = w[0];
        any_table(table, m, w, n);
    }
    if (in_either_half[0] > 0 && in_either_half[1] > 0) return;
    printf("no word breaks in the %s half\n", in_either_half[0] > 0 ? "right" : "left");
    exit(1);
}

int main(int argc, char **argv)
{
    unsigned char s[64], third[256];
    state = argc > 1 ? strtoull(argv[1], NULL, 10) * 2654435761u + 1 : 20251101;
    int rounds = argc > 2 ? atoi(argv[2]) : 400;
    memcpy(third, brute_rule(PLAIN), sizeof third);
    third['A'] = 'C';
    third['C'] = 'A';
    rules[0] = brute_rule(PLAIN);
    rules[1] = brute_rule(INVERTED);
    rules[2] = third;

    for (size_t n = 0; n <= 6; n++)
        for (unsigned code = 0; code < 1u << (2 * n); code++) {
            for (size_t i = 0; i < n; i++) s[i] = (unsigned char)"ACGT"[code >> (2 * i) & 3];
            for (int which = 0; which < 3; which++) record(which, s, n);
        }
    for (int round = 0; round < rounds; round++) {
        size_t n = 7 + next(50);
        unsigned letters = 1 + next(4), period = 1 + next(8);
        for (size_t i = 0; i < n; i++) s[i] = round % 2 && i >= period ? s[i - period] : (unsigned char)"ACGT"[next(letters)];
        if (round % 3 == 0) /* symmetric by each rule in turn, but for the middle letter */
            for (size_t i = 0; i < n / 2; i++) s[n - 1 - i] = rules[round / 3 % 3][s[i]];
        for (int which = 0; which < 3; which++) record(which, s, n);
    }
    any_tables(100 * rounds);
    printf("words that break by any table: %lu in the left half, %lu in the right; %lu answers of the definitions agree with every stretch\n",
           in_either_half[0], in_either_half[1], compared);
    return 0;
}

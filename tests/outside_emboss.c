/* What the program palindrome of EMBOSS says of a piece of DNA, held against the library's inverted record of that piece.
 * Usage: outside_emboss LETTERS ACCOUNT ARM: the files hold the piece, in capitals, and EMBOSS's account of it.
 *
 * Each place of the account must be what EMBOSS says that it is, two arms that touch and read alike on the two strands, and
 * its letters must be found, in a row of twice the arm's length that spells them. Then the other way round, where ARM is not
 * 0 but the shortest arm that the account was asked for: every place that trying each stretch finds, with arms as long as
 * they can be there and at least that long, must be in the account once, and the repeats inside its places must be all that
 * the library has of that length. tests/outside-emboss says what else EMBOSS leaves out. A second record of the piece is opened
 * plain and turned to the inverted reading half-way: it must list the same repeats.
 *
 * Prints how many places the account has and how many distinct repeats lie in them; ends with 1 at the first difference. */
#include "mirror.h"
#include <stdio.h>
#include <stdlib.h>
#include <string.h>

enum { MOST = 1024, LINE = 4 * MOST };

static char letters[MOST + 2];
static size_t n;
static uint8_t store[MIRROR_STORE_SIZE(MOST)], turned[sizeof store];
static unsigned char reported[MOST][MOST / 2 + 1]; /* by the place of the first letter and the arm's length */
static unsigned char seen[MOST + 2];               /* rows */
static size_t places, repeats;

static void wrong(const char *what, size_t start, size_t arm)
{
    int inside = start + 2 * arm <= n;
    printf("%s: the place from %zu on with arms of %zu, %.*s in %s\n", what, start, arm, inside ? (int)(2 * arm) : 0,
           letters + (inside ? start : 0), letters);
    exit(1);
}

static void no_input(const char *path, const char *why)
{
    printf("%s: %s\n", path, why);
    exit(2);
}

static char partner(char c)
{
    return c == 'A' ? 'T' : c == 'T' ? 'A' : c == 'C' ? 'G' : 'C';
}

/* whether two arms of this length, the first from start on, touch and read alike on the two strands */
static int reads_alike(size_t start, size_t arm)
{
    for (size_t i = 0; i < arm; i++)
        if (letters[start + i] != partner(letters[start + 2 * arm - 1 - i])) return 0;
    return 1;
}

static void read_letters(const char *path)
{
    FILE *in = fopen(path, "r");
    n = in ? fread(letters, 1, MOST + 1, in) : 0;
    if (in) fclose(in);
    if (n < 1 || n > MOST || strspn(letters, "ACGT") != n) no_input(path, "not 1 to 1,024 letters A, C, G and T");
}

/* a record, from the middle of the piece on at both ends in turn; one that was opened plain is turned half-way */
static void make_record(uint8_t *to, int opened_plain)
{
    size_t left = n / 2, right = n / 2;
    unsigned refused = mirror_refusal((opened_plain ? mirror_open : mirror_open_inverted)(to, sizeof store, MOST));
    while (left > 0 || right < n) {
        if (opened_plain && left == n / 4) refused |= mirror_refusal(mirror_turn_inverted(to, sizeof store));
        if (right < n) refused |= mirror_refusal(mirror_add_right(to, sizeof store, (unsigned char)letters[right++]));
        if (left > 0) refused |= mirror_refusal(mirror_add_left(to, sizeof store, (unsigned char)letters[--left]));
    }
    if (opened_plain) refused |= mirror_refusal(mirror_turn_inverted(to, sizeof store)); /* two letters have no way between */
    if (!refused) return;
    puts("the library refuses the letters");
    exit(1);
}

/* both records list the same repeats, each at its first place; no row number is in a list */
static void same_when_turned(void)
{
    static uint8_t lists[2][MIRROR_LIST_SIZE(MOST)], scratch[MIRROR_LIST_SCRATCH(MOST)];
    const uint8_t name[] = {'p'};
    uint64_t one = mirror_list(store, sizeof store, name, 1, scratch, sizeof scratch, lists[0], sizeof lists[0]);
    uint64_t other = mirror_list(turned, sizeof turned, name, 1, scratch, sizeof scratch, lists[1], sizeof lists[1]);
    if (mirror_refusal(one) == 0 && one == other && memcmp(lists[0], lists[1], mirror_first(one)) == 0) return;
    printf("a record that is turned half-way lists other repeats in %s\n", letters);
    exit(1);
}

/* the row in which the library has the letters of a place */
static unsigned row_of(size_t start, size_t arm)
{
    uint8_t spelt[MOST];
    uint64_t answer = mirror_find(store, sizeof store, (const uint8_t *)letters + start, 2 * arm);
    unsigned row = mirror_row_of(answer);
    if (mirror_refusal(answer) != 0 || mirror_flag(answer) != 1) wrong("not found", start, arm);
    if (mirror_signed_first(mirror_row(store, sizeof store, row)) != (int)(2 * arm)) wrong("another length", start, arm);
    answer = mirror_spell(store, sizeof store, row, spelt, sizeof spelt);
    if (answer != (uint64_t)(2 * arm) << 32 || memcmp(spelt, letters + start, 2 * arm) != 0) wrong("other letters", start, arm);
    return row;
}

/* a repeat and those inside it, each around the same middle, down to the shortest arm: inner rows that were not yet seen */
static void count_inside(unsigned row, size_t arm, size_t shortest)
{
    for (; arm >= shortest && !seen[row]; arm--) {
        seen[row] = 1;
        repeats++;
        row = mirror_second(mirror_row(store, sizeof store, row));
    }
}

static void place(size_t start, size_t arm, size_t shortest)
{
    if (arm < 1 || start + 2 * arm > n || !reads_alike(start, arm)) wrong("no repeat is reported", start, arm);
    if (reported[start][arm]++) wrong("reported twice", start, arm);
    places++;
    count_inside(row_of(start, arm), arm, shortest ? shortest : 1);
}

/* Reads one arm, `FROM letters TO` with places counted from 1. Its letters are printed in small letters. */
static int read_arm(const char *line, size_t *from, char *arm, size_t *to)
{
    return sscanf(line, "%zu %1024[a-z] %zu", from, arm, to) == 3;
}

/* whether the letters of an arm are those of the piece, read from a place on (counted from 0) up or down */
static int stands(const char *arm, size_t from, int step)
{
    for (size_t i = 0; arm[i]; i++, from += (size_t)step)
        if (from >= n || arm[i] - 'a' != letters[from] - 'A') return 0;
    return 1;
}

/* The account: a heading with the piece's length, then three lines for each place: the left arm, bars, and below it the right
 * arm, read backwards. */
static void read_account(const char *path, size_t shortest)
{
    char line[LINE], left[MOST + 1], right[MOST + 1];
    size_t length = 0, from, to, from_right, to_right;
    FILE *in = fopen(path, "r");
    while (in && fgets(line, sizeof line, in)) {
        if (sscanf(line, "Sequence length is: %zu", &length) == 1 || !read_arm(line, &from, left, &to)) continue;
        if (!fgets(line, sizeof line, in) || !fgets(line, sizeof line, in) || !read_arm(line, &from_right, right, &to_right))
            no_input(path, "an arm without the other one");
        size_t arm = strlen(left), start = from - 1;
        if (to != start + arm || to_right != to + 1 || from_right != to + arm || strlen(right) != arm) wrong("the arms do not touch", start, arm);
        if (!stands(left, start, 1) || !stands(right, from_right - 1, -1)) wrong("the letters are not those of the piece", start, arm);
        place(start, arm, shortest);
    }
    if (in) fclose(in);
    if (length != n) no_input(path, "no account of this piece");
}

/* every place whose arms cannot be longer, and are long enough, is in the account, and no other place is; with the letters
 * before and after it, it is absent, and these two are the first pair that breaks */
static void nothing_left_out(size_t shortest)
{
    size_t tried = 0;
    for (size_t start = 0; start < n; start++)
        for (size_t arm = shortest; start + 2 * arm <= n; arm++) {
            int inside = start > 0 && start + 2 * arm < n;
            if ((inside && reads_alike(start - 1, arm + 1)) || !reads_alike(start, arm)) continue;
            if (!reported[start][arm]) wrong("not reported", start, arm);
            const uint8_t *before = (const uint8_t *)letters + start - 1;
            if (inside && mirror_find(store, sizeof store, before, 2 * arm + 2) != 1ull << 32)
                wrong("with a letter more on either side it is not absent, or breaks elsewhere", start, arm);
            tried++;
        }
    if (tried == places) return;
    printf("%zu places are reported, and trying every stretch finds %zu in %s\n", places, tried, letters);
    exit(1);
}

/* the repeats inside the places, and those with shorter arms, are all that the library has */
static void nothing_beyond(size_t shortest)
{
    size_t count = mirror_first(mirror_count(store, sizeof store)), shorter = 0;
    for (unsigned row = 2; row < MOST + 2; row++) {
        uint64_t answer = mirror_row(store, sizeof store, row);
        shorter += mirror_refusal(answer) == 0 && mirror_first(answer) < 2 * shortest;
    }
    if (repeats + shorter == count) return;
    printf("%zu repeats lie in the reported places and %zu have shorter arms, but the library has %zu in %s\n", repeats, shorter, count, letters);
    exit(1);
}

int main(int argc, char **argv)
{
    if (argc != 4) return 2;
    size_t shortest = strtoul(argv[3], NULL, 10);
    read_letters(argv[1]);
    make_record(store, 0);
    make_record(turned, 1);
    same_when_turned();
    read_account(argv[2], shortest);
    if (shortest > 0) {
        nothing_left_out(shortest);
        nothing_beyond(shortest);
    }
    printf("%zu %zu\n", places, repeats);
    return 0;
}

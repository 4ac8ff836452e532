/* What mirrorlist does, as a plain C program: reads a FASTA record from standard input, builds an eertree with one
 * addition for each letter, and prints each palindrome at its first place as a BED line. A palindrome is new where it
 * first ends, so the lines come in order without a second pass. Refusals print their number alone.
 *
 * The benchmark runs it beside mirrorlist, start-up included. */
#include <stdbool.h>
#include <stdint.h>
#include <stdio.h>
#include <string.h>

enum { INPUT_MOST = 65536, LETTERS_MOST = 1024, NAME_MOST = 32, LINE_MOST = NAME_MOST + 13 };

static uint8_t input[INPUT_MOST + 1], letters[LETTERS_MOST];
static char output[LETTERS_MOST * LINE_MOST];

static const char *name;
static size_t name_length, letter_count;

static bool name_byte(uint8_t c)
{
    return (c >= 'A' && c <= 'Z') || (c >= 'a' && c <= 'z') || (c >= '0' && c <= '9') || c == '_';
}

/* The capital of a letter in either case; of no other byte a letter. */
static uint8_t capital(uint8_t c) { return c & 0xdf; }

static bool is_letter(uint8_t c)
{
    c = capital(c);
    return c == 'A' || c == 'C' || c == 'G' || c == 'T';
}

/* Reads the first line; `at` becomes the place behind it. The refusal number, or 0. */
static int first_line(const uint8_t *text, size_t n, size_t *at)
{
    size_t i = 1;
    if (n == 0 || text[0] != '>')
        return 10;
    while (i < n && name_byte(text[i]))
        i++;
    name = (const char *)text + 1;
    name_length = i - 1;
    if (name_length < 1 || name_length > NAME_MOST)
        return 10;
    bool line_end = i == n || text[i] == '\n' || (text[i] == '\r' && i + 1 < n && text[i + 1] == '\n');
    if (!line_end && text[i] != ' ' && text[i] != '\t')
        return 10;
    while (i < n && text[i] != '\n')
        i++;
    *at = i < n ? i + 1 : n;
    return 0;
}

/* Reads the later lines. The refusal number, or 0. */
static int later_lines(const uint8_t *text, size_t n, size_t at)
{
    for (bool line_start = true; at < n; at++) {
        uint8_t c = text[at];
        if (line_start && c == '>')
            return 11;
        line_start = c == '\n';
        if (line_start || (c == '\r' && at + 1 < n && text[at + 1] == '\n'))
            continue;
        if (!is_letter(c))
            return 4;
        if (letter_count == LETTERS_MOST)
            return 5;
        letters[letter_count++] = capital(c);
    }
    return 0;
}

static char *put_decimal(char *at, unsigned v)
{
    char digits[10];
    int n = 0;
    do {
        digits[n++] = (char)('0' + v % 10);
        v /= 10;
    } while (v != 0);
    while (n > 0)
        *at++ = digits[--n];
    return at;
}

static char *put_line(char *at, unsigned start, unsigned end)
{
    memcpy(at, name, name_length);
    at += name_length;
    *at++ = '\t';
    at = put_decimal(at, start);
    *at++ = '\t';
    at = put_decimal(at, end);
    *at++ = '\n';
    return at;
}

struct node {
    int length, link, next[4];
};

/* Node 0 is the imaginary string of length -1, node 1 the empty string. */
static struct node node[LETTERS_MOST + 2] = {{.length = -1}, {.length = 0}};

static int walk(int v, int i)
{
    while (i - node[v].length < 1 || letters[i - node[v].length - 1] != letters[i])
        v = node[v].link;
    return v;
}

/* Adds every letter at the right and writes a line for each new palindrome; the place behind them. */
static char *list(char *at)
{
    static const uint8_t edge[256] = {['A'] = 0, ['C'] = 1, ['G'] = 2, ['T'] = 3};
    int last = 1, nodes = 2;
    for (int i = 0; i < (int)letter_count; i++) {
        int e = edge[letters[i]], around = walk(last, i);
        last = node[around].next[e];
        if (last != 0)
            continue;
        last = nodes++;
        node[last].length = node[around].length + 2;
        node[last].link = around == 0 ? 1 : node[walk(node[around].link, i)].next[e];
        node[around].next[e] = last;
        at = put_line(at, (unsigned)(i + 1 - node[last].length), (unsigned)i + 1);
    }
    return at;
}

int main(void)
{
    size_t n = fread(input, 1, sizeof input, stdin), at = 0;
    int refusal = n > INPUT_MOST ? 12 : first_line(input, n, &at);
    if (refusal == 0)
        refusal = later_lines(input, n, at);
    if (refusal != 0) {
        printf("# refused %d\n", refusal);
        return 0;
    }
    char *end = list(output);
    fwrite(output, 1, (size_t)(end - output), stdout);
    return 0;
}

#include "uncertain_texts.h"
#include "random.h"
#include <ctype.h>
#include <string.h>

static const char codes[] = "ACGTRYMKSWBDHVN"; /* A and C first, then the other bases, N last */

enum { BASES = 4, N = 14, CODES = 15 };

static uint8_t some_code(unsigned first, unsigned past)
{
    return (uint8_t)codes[first + random_below(past - first)];
}

/* codes of these, by their places in the list above, each by itself */
static void any_of(uint8_t *text, size_t n, unsigned first, unsigned past)
{
    for (size_t i = 0; i < n; i++) text[i] = some_code(first, past);
}

/* one place in sixteen, or about that, gets another code */
static void here_and_there(uint8_t *text, size_t n, unsigned first, unsigned past)
{
    for (size_t i = random_below(16); i < n; i += 1 + random_below(31)) text[i] = some_code(first, past);
}

static void letters(uint8_t *text, size_t n) { any_of(text, n, 0, BASES); }
static void two_letters(uint8_t *text, size_t n) { any_of(text, n, 0, 2); }
static void all_codes(uint8_t *text, size_t n) { any_of(text, n, 0, CODES); }
static void no_bases(uint8_t *text, size_t n) { any_of(text, n, BASES, CODES); }

static void few_codes(uint8_t *text, size_t n)
{
    uint8_t few[3] = {some_code(0, CODES), some_code(0, CODES), some_code(0, BASES)};
    for (size_t i = 0; i < n; i++) text[i] = few[random_below(3)];
}

static void mostly_certain(uint8_t *text, size_t n)
{
    two_letters(text, n);
    here_and_there(text, n, BASES, CODES);
}

static void mostly_n(uint8_t *text, size_t n)
{
    memset(text, 'N', n);
    here_and_there(text, n, 0, N);
}

static void mostly_a(uint8_t *text, size_t n)
{
    memset(text, 'A', n);
    here_and_there(text, n, 1, 2);
}

/* A at the left, C at the right and N between: from every place of the middle a search for some choice goes far */
static void n_between(uint8_t *text, size_t n)
{
    memset(text, 'N', n);
    memset(text, 'A', n / 4);
    memset(text + n - n / 4, 'C', n / 4);
}

/* all agrees for some choice but for two places that face each other */
static void one_pair_apart(uint8_t *text, size_t n)
{
    size_t at = random_below((unsigned)n);
    memset(text, 'N', n);
    text[n - 1 - at] = 'C';
    text[at] = 'A';
}

/* the right half the mirror image of the left one */
static void mirror(uint8_t *text, size_t n)
{
    for (size_t i = 0; i < n / 2; i++) text[n - 1 - i] = text[i];
}

/* a mirror repeat of letters with one place changed, anywhere */
static void nearly_mirrored(uint8_t *text, size_t n)
{
    two_letters(text, n);
    mirror(text, n);
    text[random_below((unsigned)n)] = some_code(0, CODES);
}

/* the same of any codes, of which some face N */
static void nearly_mirrored_codes(uint8_t *text, size_t n)
{
    all_codes(text, n);
    mirror(text, n);
    here_and_there(text, n, N, CODES);
    text[random_below((unsigned)n)] = some_code(0, BASES);
}

/* a mirror repeat among random letters, as long as may be, at an end or anywhere, and one of uncertain codes: over it, under it, apart */
static void mirrored_somewhere(uint8_t *text, size_t n)
{
    unsigned first = random_below(2);
    letters(text, n);
    for (unsigned i = 0; i < 2; i++) {
        size_t length = 1 + random_below((unsigned)n), last = n - length;
        size_t start = random_below(2) ? random_below((unsigned)last + 1) : random_below(2) ? last : 0;
        (i == first ? no_bases : letters)(text + start, length);
        mirror(text + start, length);
    }
}

/* a few codes again and again */
static void repeated(uint8_t *text, size_t n)
{
    size_t part = 1 + random_below(5);
    all_codes(text, n < part ? n : part);
    for (size_t i = part; i < n; i++) text[i] = text[i - part];
    if (random_below(2)) here_and_there(text, n, 0, CODES);
}

static void (*const kinds[])(uint8_t *, size_t) = {
    letters, two_letters, few_codes, all_codes, no_bases, mostly_certain, mostly_n, mostly_a, n_between, one_pair_apart,
    nearly_mirrored, nearly_mirrored_codes, mirrored_somewhere, repeated};

const size_t uncertain_kinds = sizeof kinds / sizeof kinds[0];

void uncertain_text(size_t kind, uint8_t *text, size_t n)
{
    if (n > 0) kinds[kind](text, n);
}

void uncertain_cases(uint8_t *text, size_t n)
{
    for (size_t i = 0; i < n; i++)
        if (random_below(2)) text[i] = (uint8_t)tolower(text[i]);
}

/* Whether the twin tells the library's lengths of texts of codes: the texts that are timed, whole and cut, short random ones over
 * many codes and over few, every byte in the place of a code, and texts that are too long go through both, and every answer must
 * agree. Prints how many texts were compared, and ends with 1 at the first difference. */
#include <stdio.h>
#include <stdlib.h>

#include "../include/mirror.h"
#include "codes.h"
#include "twin.h"
#include "words.h"

enum { SHORT = 40, SHORT_TEXTS = 30000, TOO_LONG = 2 * CODES_MOST };

static unsigned long compared, refused;

static void compare(const uint8_t *text, size_t n, const char *where)
{
    uint64_t ours = mirror_uncertain(text, n), theirs = twin_uncertain(text, n);
    compared++;
    refused += mirror_refusal(ours) != 0;
    if (ours == theirs)
        return;
    printf("bench/same_uncertain: %s of %zu bytes differs: %016llx against %016llx\n", where, n, (unsigned long long)ours,
           (unsigned long long)theirs);
    exit(1);
}

/* Each byte value at a place of a text, the codes among them. */
static void any_byte(uint8_t *text, size_t n, size_t place)
{
    uint8_t code = text[place];
    for (int byte = 0; byte < 256; byte++) {
        text[place] = (uint8_t)byte;
        compare(text, n, "a text with any byte");
    }
    text[place] = code;
}

static void any_bytes(void)
{
    static const size_t sizes[] = {1, 2, 3, 8, CODES_MOST - 1, CODES_MOST, CODES_MOST + 1};
    uint8_t text[CODES_MOST + 1];
    uint32_t seed = 3;
    draw_codes(all_codes, &seed, text, sizeof text);
    for (size_t i = 0; i < sizeof sizes / sizeof *sizes; i++) {
        any_byte(text, sizes[i], 0);
        any_byte(text, sizes[i], sizes[i] / 2);
        any_byte(text, sizes[i], sizes[i] - 1);
    }
}

/* Texts over few codes have long stretches, for some choice or for every one. */
static void short_texts(void)
{
    static const char *const from[] = {all_codes, "acgtrymkswbdhvn", "AC", "AN", "ACN", "ARY", "AaCcn"};
    uint8_t text[SHORT];
    uint32_t seed = 4;
    for (size_t i = 0; i < sizeof from / sizeof *from; i++)
        for (int k = 0; k < SHORT_TEXTS; k++) {
            size_t n = (size_t)k % (SHORT + 1);
            draw_codes(from[i], &seed, text, n);
            compare(text, n, "a short text");
        }
}

static void timed_texts(void)
{
    static const size_t sizes[] = {0, 1, 2, 3, 4, 5, 63, 64, 65, 1000, CODES_MOST - 1, CODES_MOST};
    uint8_t text[CODES_MOST];
    for (int which = 0; which < CODE_TEXTS; which++) {
        make_codes(which, text);
        for (size_t i = 0; i < sizeof sizes / sizeof *sizes; i++)
            compare(text, sizes[i], code_text_names[which]);
    }
}

static void too_long(void)
{
    static uint8_t text[TOO_LONG];
    uint32_t seed = 5;
    draw_codes(all_codes, &seed, text, sizeof text);
    for (size_t n = CODES_MOST - 2; n <= TOO_LONG; n++)
        compare(text, n, "a long text");
}

int main(void)
{
    timed_texts();
    short_texts();
    any_bytes();
    too_long();
    printf("bench/same_uncertain: %lu texts gave equal answers, %lu of them refused by both\n", compared, refused);
    return 0;
}

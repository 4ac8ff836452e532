/* The two lengths of a text of uncertain bases, 02 (xii), through the C boundary: the longest stretch that is a mirror repeat for some
 * choice of bases, and the longest that is one for every choice. They are held against a second program, which makes every choice of a
 * short text, and of a long one tries every stretch; of short texts it does both, and the two must find the same stretches. All texts
 * of up to three codes in both cases and of up to five capitals, random ones of up to twelve; of 1 to 1,024 codes random texts, and texts
 * that are made so that a search goes far or ends too soon. Some long texts have their lengths by a rule written here, without the
 * second program: A with one C or one N at each place, N with A facing C at each place, N between A and C, ACGT again and again. The
 * lengths of a text of A, C, G and T are that of the longest repeat of a plain record of these letters. A text answers as it does in small
 * letters, in capitals, in mixed case and read backwards; its bytes stay. Any byte that is no code is refused with 4, any text of more
 * than 1,024 bytes with 5, whatever it holds. The texts end at a guard page and begin right after one. Usage: uncertain [seed [rounds]] */
#include "brute.h"
#include "followed.h"
#include "guard.h"
#include "mirror.h"
#include "random.h"
#include "second_uncertain.h"
#include "uncertain_keys.h"
#include "uncertain_texts.h"
#include "words.h"
#include <ctype.h>
#include <stdio.h>
#include <stdlib.h>
#include <string.h>

enum { MOST = MOST_CODES, MILLION = 1000000, LONG = 256, CHOICES = 4096, TEXT_SLOT = FOLLOWED_SLOT + 1 };

static uint8_t text[MILLION];
static const uint8_t *now; /* the text that is asked about, and how long it is */
static size_t now_length;
static unsigned long calls, by_choices, by_stretches, by_rule, records, refused[MIRROR_FULL + 1];

/* ---- one text */

static void agrees(const char *what, uint64_t wanted, uint64_t got)
{
    if (wanted == got) return;
    printf("%.*s%s (%zu bytes): %s: wanted %llx, got %llx\n", (int)(now_length < 60 ? now_length : 60), (const char *)now,
           now_length < 60 ? "" : "..", now_length, what, (unsigned long long)wanted, (unsigned long long)got);
    exit(1);
}

static uint64_t lengths(size_t some, size_t every)
{
    return (uint64_t)some << 32 | (uint64_t)every << 48;
}

/* the answer to a copy of these bytes at a guard page; the copy must stay as it is */
static uint64_t asked(const uint8_t *bytes, size_t n)
{
    uint8_t *lent = guarded(TEXT_SLOT, bytes, n);
    uint64_t answer = mirror_uncertain(lent, n);
    agrees("a byte of the text changed", 0, n > 0 && memcmp(lent, bytes, n) != 0);
    calls++;
    return answer;
}

static void answers(const uint8_t *bytes, size_t n, uint64_t wanted)
{
    now = bytes;
    now_length = n;
    for (int place = GUARD_AFTER; place <= GUARD_BEFORE; place++) {
        guard_at((guard_place)place);
        uint64_t answer = asked(bytes, n);
        agrees("the answer", wanted, answer);
        if (mirror_refusal(answer)) continue;
        agrees("the second is at most the first", 1, mirror_second(answer) <= mirror_first(answer));
        agrees("the first is at most the length", 1, mirror_first(answer) <= n);
        agrees("both are at least 1 where a code stands", n > 0, mirror_second(answer) >= 1);
    }
    refused[mirror_refusal(wanted)]++;
}

/* the same text in small letters, in capitals, in mixed case and read backwards */
static void answers_alike(const uint8_t *bytes, size_t n, uint64_t wanted)
{
    static uint8_t other[MOST];
    for (size_t i = 0; i < n; i++) other[i] = (uint8_t)tolower(bytes[i]);
    agrees("in small letters", wanted, asked(other, n));
    for (size_t i = 0; i < n; i++) other[i] = (uint8_t)toupper(bytes[i]);
    agrees("in capitals", wanted, asked(other, n));
    uncertain_cases(other, n);
    agrees("in mixed case", wanted, asked(other, n));
    for (size_t i = 0; i < n; i++) other[i] = bytes[n - 1 - i];
    agrees("read backwards", wanted, asked(other, n));
}

/* ---- kinds of answers: each must come up, in texts of up to 256 codes and, with the last two, in longer ones */

enum { CASES = 15, LONG_CASES = 2 };

static const char *const case_words[CASES] = {
    "all of it for every choice", "all of it for some choice only", "unlike parts", "the part for every choice beyond the one for some",
    "an even length for some choice", "an odd length for some choice", "an even length for every choice", "an odd length for every choice",
    "the first places for some choice", "the last places for some choice", "the first places for every choice", "the last places for every choice",
    "an uncertain middle", "a length above 255 for some choice only", "a length above 255 for every choice"};
static unsigned long cases[2][CASES];

static void count_cases(const uint8_t *bytes, size_t n, second_longest of)
{
    size_t some = of.some.length, every = of.every.length, some_end = of.some.start + some, every_end = of.every.start + every;
    int some_part = 1 < some && some < n, every_part = 1 < every && every < n;
    const char *middle = every % 2 ? second_bases(bytes[of.every.start + every / 2]) : "";
    const int met[CASES] = {
        n > 1 && every == n, every < some && some == n, every_part && every < some && some_part,
        every_part && (of.every.start < of.some.start || every_end > some_end),
        some_part && some % 2 == 0, some_part && some % 2 == 1, every_part && every % 2 == 0, every_part && every % 2 == 1,
        some_part && of.some.start == 0, some_part && some_end == n, every_part && of.every.start == 0, every_part && every_end == n,
        every_part && strlen(middle) > 1, some > 255 && every < 256, every > 255 && every < some};
    for (size_t i = 0; i < CASES; i++) cases[n > LONG][i] += (unsigned long)met[i];
}

static void all_came_up(void)
{
    now_length = 0;
    for (size_t of_long = 0; of_long < 2; of_long++)
        for (size_t i = 0; i < CASES - (of_long ? 0 : LONG_CASES); i++) agrees(case_words[i], 1, cases[of_long][i] > 0);
}

/* ---- by the second program */

/* a text of few codes by every choice and by every stretch, which find the same two stretches */
static uint64_t short_text(const uint8_t *bytes, size_t n)
{
    second_longest chosen = second_by_choices(bytes, n), tried = second_by_stretches(bytes, n);
    now = bytes;
    now_length = n;
    agrees("the two ways of the second program differ", 0, memcmp(&chosen, &tried, sizeof chosen) != 0);
    answers(bytes, n, second_answer(chosen));
    count_cases(bytes, n, chosen);
    by_choices++;
    return second_answer(chosen);
}

static void long_text(const uint8_t *bytes, size_t n)
{
    second_longest tried = second_by_stretches(bytes, n);
    answers(bytes, n, second_answer(tried));
    answers_alike(bytes, n, second_answer(tried));
    count_cases(bytes, n, tried);
    by_stretches++;
}

/* the keys written by hand, which tests/keys.c asks of the library, are what the second program finds */
static void keys(void)
{
    for (size_t i = 0; i < uncertain_keys_count; i++) {
        const uncertain_key *key = &uncertain_keys[i];
        uint64_t found = short_text((const uint8_t *)key->text, strlen(key->text));
        agrees("the key", lengths(key->some, key->every), found);
    }
    for (size_t i = 0; i < uncertain_none_count; i++)
        agrees(uncertain_none[i], MIRROR_NO_LETTER, second_refusal((const uint8_t *)uncertain_none[i], strlen(uncertain_none[i])));
    for (const char *one = uncertain_codes; *one; one++)
        for (const char *other = uncertain_codes; *other; other++) {
            uint8_t pair[] = {(uint8_t)*one, (uint8_t)*other};
            char a = (char)toupper(*one), b = (char)toupper(*other);
            agrees("the key of a pair", lengths(uncertain_pair_some(a, b), uncertain_pair_every(a, b)), short_text(pair, 2));
        }
}

/* every text of n of these codes */
static void every_text(size_t n, unsigned long of)
{
    unsigned long texts = 1;
    uint8_t word[MOST_CHOSEN];
    for (size_t i = 0; i < n; i++) texts *= of;
    for (unsigned long number = 0; number < texts; number++) {
        unsigned long rest = number;
        for (size_t i = 0; i < n; i++, rest /= of) word[i] = (uint8_t)uncertain_codes[rest % of];
        uint64_t wanted = short_text(word, n);
        if (n < 5) answers_alike(word, n, wanted);
    }
}

/* how many of these codes, from the first on, leave at most so many choices */
static size_t chosen_of(const uint8_t *bytes, size_t n)
{
    size_t choices = 1, i = 0;
    while (i < n && (choices *= strlen(second_bases(bytes[i]))) <= CHOICES) i++;
    return i;
}

static void random_short(unsigned rounds)
{
    for (size_t kind = 0; kind < uncertain_kinds; kind++)
        for (unsigned i = 0; i < rounds; i++) {
            size_t most = 6 + i % (MOST_CHOSEN - 5);
            uncertain_text(kind, text, most);
            size_t n = chosen_of(text, most);
            answers_alike(text, n, short_text(text, n));
        }
}

static void random_long(unsigned rounds)
{
    for (size_t kind = 0; kind < uncertain_kinds; kind++)
        for (unsigned i = 0; i < rounds; i++) {
            size_t n = i % 4 == 0 ? MOST : i % 4 == 1 ? MOST - 1 : i % 4 == 2 ? 1 + random_below(MOST) : 250 + random_below(16);
            uncertain_text(kind, text, n);
            long_text(text, n);
        }
}

/* a mirror repeat of letters with any code at each place, or at each eighth of a long one */
static void changed_everywhere(size_t n)
{
    size_t step = n < 300 ? 1 : 8;
    for (size_t at = random_below((unsigned)step); at < n; at += step) {
        for (size_t i = 0; i < n; i++) text[i] = i < (n + 1) / 2 ? (uint8_t)"ACGT"[random_below(4)] : text[n - 1 - i];
        text[at] = (uint8_t)uncertain_codes[random_below(UNCERTAIN_CODES)];
        long_text(text, n);
    }
}

/* ---- by a rule */

static void ruled(size_t n, size_t some, size_t every)
{
    answers(text, n, lengths(some, every));
    by_rule++;
}

/* A with one C: the longest is the longer run of A, or the stretch around the C; N for C agrees for some choice with every A */
static void one_other(size_t n)
{
    memset(text, 'A', n);
    ruled(n, n, n);
    for (size_t at = 0; at < n; at++) {
        size_t shorter = at < n - 1 - at ? at : n - 1 - at, longer = n - 1 - shorter;
        size_t longest = 2 * shorter + 1 > longer ? 2 * shorter + 1 : longer;
        text[at] = 'C';
        ruled(n, longest, longest);
        text[at] = 'N';
        ruled(n, n, longest);
        text[at] = 'A';
    }
}

/* N, and A that faces C: without the first place, or the last, all agrees for some choice */
static void one_pair(size_t n)
{
    memset(text, 'N', n);
    ruled(n, n, 1);
    for (size_t at = 0; at < n / 2; at++) {
        text[at] = 'A';
        text[n - 1 - at] = 'C';
        ruled(n, n - 1, 1);
        text[at] = text[n - 1 - at] = 'N';
    }
}

/* N between A and C, a quarter each: all but the A, or all but the C, agrees for some choice. ACGT again and again: no two places next
 * to each other agree, nor two with one between them. */
static void of_every_length(void)
{
    for (size_t n = 1; n <= MOST; n++) {
        memset(text, 'N', n);
        memset(text, 'A', n / 4);
        memset(text + n - n / 4, 'C', n / 4);
        ruled(n, n - n / 4, n < 4 ? 1 : n / 4);
        for (size_t i = 0; i < n; i++) text[i] = (uint8_t)"ACGT"[i % 4];
        ruled(n, 1, 1);
    }
}

/* ---- letters only: a plain record of them has the same longest repeat */

static void as_a_record(const uint8_t *letters, size_t n)
{
    make_record(PLAIN, letters, n, AT_THE_RIGHT);
    size_t longest = mirror_first(mirror_longest_length(record.store, record.length));
    now = letters;
    now_length = n;
    agrees("the longest of the record", longest, mirror_first(mirror_longest(record.store, record.length)));
    answers(letters, n, lengths(longest, longest));
    answers_alike(letters, n, lengths(longest, longest));
    records++;
}

static void as_records(void)
{
    for (size_t n = 0; n <= 6; n++)
        for (unsigned code = 0; code < 1u << (2 * n); code++) {
            for (size_t i = 0; i < n; i++) text[i] = (uint8_t)"ACGT"[code >> (2 * i) & 3];
            as_a_record(text, n);
        }
    for (int kind = 0; kind < WORDS; kind++) {
        choose_word(kind, PLAIN, text);
        as_a_record(text, 300 + random_below(300));
        as_a_record(text, MOST);
    }
}

/* ---- what is refused */

/* every byte first, in the middle and last among codes */
static void every_byte(size_t n)
{
    for (unsigned byte = 0; byte < 256; byte++)
        for (unsigned part = 0; part < 3; part++) {
            size_t at = part * (n - 1) / 2;
            int is_code = byte != 0 && strchr(uncertain_codes, (int)byte) != NULL;
            uncertain_text(random_below((unsigned)uncertain_kinds), text, n);
            text[at] = (uint8_t)byte;
            if (is_code) long_text(text, n);
            else {
                answers(text, n, MIRROR_NO_LETTER);
                answers_alike(text, n, MIRROR_NO_LETTER);
            }
        }
}

/* too many bytes: all codes, all but one, and none */
static void too_long(size_t n)
{
    static const uint8_t none[] = {'U', 'x', 0, ' ', '\n', 0xff};
    for (size_t i = 0; i < n; i++) text[i] = (uint8_t)uncertain_codes[random_below(2 * UNCERTAIN_CODES)];
    answers(text, n, MIRROR_FULL);
    for (unsigned part = 0; part < 4; part++) {
        size_t at = part < 3 ? part * (n - 1) / 2 : MOST; /* the first over the limit too */
        uint8_t was = text[at];
        text[at] = none[(n + part) % sizeof none];
        answers(text, n, MIRROR_FULL);
        text[at] = was;
    }
    for (size_t i = 0; i < sizeof none; i++) {
        memset(text, none[i], n);
        answers(text, n, MIRROR_FULL);
    }
}

static void refusals(void)
{
    static const size_t good[] = {1, 2, 3, 17, 256, 257, MOST - 1, MOST};
    static const size_t long_ones[] = {MOST + 1, MOST + 2, 2 * MOST, 65535, 65536, 65537, 65536 + MOST, 131072, MILLION};
    answers(text, 0, 0);
    for (size_t i = 0; i < sizeof good / sizeof good[0]; i++) every_byte(good[i]);
    for (size_t i = 0; i < sizeof long_ones / sizeof long_ones[0]; i++) too_long(long_ones[i]);
}

int main(int argc, char **argv)
{
    static const size_t changed[] = {2, 3, 255, 256, 257, 258, MOST - 1, MOST};
    unsigned rounds = argc > 2 ? (unsigned)strtoul(argv[2], NULL, 10) : 60;
    random_seed(argc > 1 ? argv[1] : NULL, 20261201);
    keys();
    for (size_t n = 0; n <= 3; n++) every_text(n, 2 * UNCERTAIN_CODES);
    for (size_t n = 4; n <= 5; n++) every_text(n, UNCERTAIN_CODES);
    random_short(10 * rounds);
    random_long(rounds);
    for (size_t i = 0; i < sizeof changed / sizeof changed[0]; i++) changed_everywhere(changed[i]);
    for (size_t n = MOST - 1; n <= MOST; n++) one_other(n), one_pair(n);
    of_every_length();
    as_records();
    refusals();
    all_came_up();
    printf("%lu calls: %lu texts by every choice, %lu by every stretch, %lu by a rule, %lu as records; %lu texts refused with 4, %lu with 5\n", calls,
           by_choices, by_stretches, by_rule, records, refused[MIRROR_NO_LETTER], refused[MIRROR_FULL]);
    return 0;
}

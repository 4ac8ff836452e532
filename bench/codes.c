/* Ordinary texts are quick: where most pairs of places differ each centre is left at once, and where the middle of the text serves,
 * it answers for all. A bad text has long stretches around many centres, and none so long that other centres can be left out:
 *
 *     A, C now and then   each C ends the stretches that it faces an A in, and none is longer than two thirds of the text
 *     A, N, C             N faces all, and a stretch for some choice ends where an A faces a C: around each centre further from the
 *                         middle it is longer, up to 768 codes
 *     C, N, C             around the middle the Cs serve some choice, up to 800 codes; the Ns between them end what serves every
 *                         choice, and the 399 codes that serve it at last lie far from the middle
 *     T, K, G             K faces T and G, which do not face each other, and A and C outside face none of them: as A, N, C, but for
 *                         602 codes at most, so that fewer centres are left out
 *     climbed             knows nothing of all that: see climb */
#include "codes.h"

#include <stdlib.h>
#include <string.h>

#include "twin.h"
#include "words.h"

enum { CLIMB_STEPS = 8000 };

const char *const code_text_names[CODE_TEXTS] = {"random codes", "random ACGT", "a read", "all A", "all N", "N, one pair A and C",
                                                 "A, C now and then", "A, N, C", "C, N, C", "T, K, G", "climbed"};

const char all_codes[] = "ACGTRYMKSWBDHVN";

/* What the texts by chance are drawn from: of a read, one in fourteen is uncertain. */
#define FOUR(codes) codes codes codes codes
static const char *const drawn_from[] = {all_codes, "ACGT", FOUR(FOUR("ACGTacgt")) "NNnnRyKmSw"};

/* Runs of codes that come to CODES_MOST. */
static const char *const runs_of[CODE_TEXTS] = {
    [CODES_A] = "A1024",
    [CODES_N] = "N1024",
    [CODES_ONE_PAIR] = "N256A1N510C1N256",
    [CODES_FEW_C] = "A167C1A2C1A674C1A69C1A15C1A92",
    [CODES_A_N_C] = "A256N512C256",
    [CODES_C_N_C] = "A112C399N2C399G112",
    [CODES_T_K_G] = "A67T288K314G288C67",
};

static size_t draw_below(size_t end, uint32_t *seed) { return (next_random(seed) >> 8) % end; }

void draw_codes(const char *from, uint32_t *seed, uint8_t *out, size_t n)
{
    size_t kinds = strlen(from);
    for (size_t i = 0; i < n; i++)
        out[i] = (uint8_t)from[draw_below(kinds, seed)];
}

void draw_text(int which, uint32_t *seed, uint8_t *out) { draw_codes(drawn_from[which], seed, out, CODES_MOST); }

static void make_runs(const char *runs, uint8_t *out)
{
    while (*runs) {
        int code = *runs++;
        char *end;
        size_t length = strtoul(runs, &end, 10);
        memset(out, code, length);
        out += length;
        runs = end;
    }
}

/* From step to step a stretch gets a code by chance, and keeps it if no fewer pairs of places are compared than before. */
static void climb(uint8_t *out)
{
    uint8_t before[CODES_MOST];
    uint32_t seed = 1;
    size_t most = 0;
    memset(out, 'N', CODES_MOST);
    for (int step = 0; step < CLIMB_STEPS; step++) {
        size_t at = draw_below(CODES_MOST, &seed), room = CODES_MOST - at, longest = (size_t)1 << draw_below(10, &seed);
        size_t length = 1 + draw_below(longest < room ? longest : room, &seed);
        memcpy(before, out, CODES_MOST);
        memset(out + at, all_codes[draw_below(strlen(all_codes), &seed)], length);
        size_t pairs = twin_uncertain_pairs(out, CODES_MOST);
        if (pairs < most)
            memcpy(out, before, CODES_MOST);
        else
            most = pairs;
    }
}

void make_codes(int which, uint8_t *out)
{
    static uint8_t climbed[CODES_MOST];
    uint32_t seed = 20251117;
    if (is_random_text(which))
        draw_text(which, &seed, out);
    else if (runs_of[which])
        make_runs(runs_of[which], out);
    else {
        if (climbed[0] == 0)
            climb(climbed);
        memcpy(out, climbed, CODES_MOST);
    }
}

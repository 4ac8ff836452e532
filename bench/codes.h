/* The texts of codes that mirror_uncertain is run on: ordinary ones first, then some that are made to be bad for it (codes.c). */
#ifndef BENCH_CODES_H
#define BENCH_CODES_H

#include <stdbool.h>
#include <stddef.h>
#include <stdint.h>

/* Each is of the largest length. */
enum { CODES_MOST = 1024 };

enum {
    CODES_RANDOM,
    CODES_BASES,
    CODES_READ,
    CODES_A,
    CODES_N,
    CODES_ONE_PAIR,
    CODES_FEW_C,
    CODES_A_N_C,
    CODES_C_N_C,
    CODES_T_K_G,
    CODES_CLIMBED,
    CODE_TEXTS
};
extern const char *const code_text_names[CODE_TEXTS];

/* The fifteen codes as capitals. */
extern const char all_codes[];

/* Whether a text is drawn by chance, place by place. */
static inline bool is_random_text(int which) { return which <= CODES_READ; }

void make_codes(int which, uint8_t *out);

/* Another text of a kind that is drawn by chance. */
void draw_text(int which, uint32_t *seed, uint8_t *out);

/* Writes n codes drawn by chance from some. */
void draw_codes(const char *from, uint32_t *seed, uint8_t *out, size_t n);

#endif

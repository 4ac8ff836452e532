/* Texts of uncertain bases with their two lengths, written out by hand from the paper. */
#ifndef UNCERTAIN_KEYS_H
#define UNCERTAIN_KEYS_H
#include <stddef.h>

/* A text, and the length of its longest stretch that is a mirror repeat for some choice, and for every choice. */
typedef struct { const char *text; unsigned some, every; } uncertain_key;

/* A code in capitals, and those codes that have no base of its own. */
typedef struct { char code; const char *apart; } uncertain_pair;

enum { UNCERTAIN_CODES = 15 };

extern const uncertain_key uncertain_keys[];
extern const size_t uncertain_keys_count;
extern const uncertain_pair uncertain_pairs[UNCERTAIN_CODES];
/* All bytes that are a code, the capitals first, and some texts with a byte that is none. */
extern const char uncertain_codes[];
extern const char *const uncertain_none[];
extern const size_t uncertain_none_count;
/* The key of two codes, capitals: 2 for some choice where they have a base in common, 2 for every choice where both are one base. */
unsigned uncertain_pair_some(char one, char other);
unsigned uncertain_pair_every(char one, char other);
#endif

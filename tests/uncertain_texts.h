/* Texts of codes for the call on uncertain bases: random ones, and ones that are made so that a search goes far, or ends too soon. They
 * follow from the seed of random.h. */
#ifndef UNCERTAIN_TEXTS_H
#define UNCERTAIN_TEXTS_H
#include <stddef.h>
#include <stdint.h>

/* How many kinds of texts there are. */
extern const size_t uncertain_kinds;
/* Writes n codes of a kind, all capitals. */
void uncertain_text(size_t kind, uint8_t *text, size_t n);
/* Makes small letters of some of the codes. */
void uncertain_cases(uint8_t *text, size_t n);
#endif

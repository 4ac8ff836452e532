/* A second program for marking a sheet of BED lines, 02 (xi), which shares nothing with the library: the sheet is read byte by byte by
 * a list of states, every line is held against the letters, and every repeat against every line. */
#ifndef SECOND_MARKER_H
#define SECOND_MARKER_H
#include <stddef.h>
#include <stdint.h>

typedef struct { uint64_t right, repeated, wrong, missing; } second_counts;

/* Whether every line of the sheet has three fields ended by LF, the last two of them numbers: where it has not, the call answers 13. */
int second_is_sheet(const uint8_t *sheet, size_t length);
/* The counts of such a sheet against up to 1,024 letters read by a partner rule (tests/brute.h), under an identifier. */
second_counts second_marks(const unsigned char *rule, const uint8_t *letters, size_t n, const uint8_t *name, size_t name_length,
                           const uint8_t *sheet, size_t length);
/* Whether each repeat is named by one line and every line names one: of the lines and repeats, not of the counts. */
int second_full(const unsigned char *rule, const uint8_t *letters, size_t n, const uint8_t *name, size_t name_length,
                const uint8_t *sheet, size_t length);
/* The 32 bytes that hold the counts. */
void second_mark_bytes(second_counts counts, uint8_t bytes[32]);
#endif

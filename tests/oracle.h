/* One call through the C boundary, judged from the store's own bytes: what a good store must answer and become is worked
 * out by trying every stretch of the letters that it shows, the page of a record by a second writer (second_page.c), the marks of a
 * sheet by a second marker (second_marker.c), and any other store must be refused with 3. A disagreement is printed and ends the
 * program. The calls get their buffers beside guard pages. */
#ifndef ORACLE_H
#define ORACLE_H
#include "calls.h"

extern unsigned long oracle_calls;

/* Makes the call on the store, where every byte of it is checked afterwards, and returns its answer. */
uint64_t oracle(uint8_t *store, size_t length, const call *c);
/* Opens the store for a record that is read so, with the same checks. */
uint64_t oracle_open(uint8_t *store, size_t length, unsigned reading, uint64_t capacity);
/* Why the last store was not good, NULL where it was. */
const char *oracle_verdict(void);
#endif

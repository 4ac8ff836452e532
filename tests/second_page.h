/* A second writer of the GenBank page, which goes letter by letter and says before each what stands between it and the one
 * before. It shares nothing with the library or its header, so that a slip in one of them shows where the two are compared. */
#ifndef SECOND_PAGE_H
#define SECOND_PAGE_H
#include <stddef.h>

enum { SECOND_PAGE_ROOM = 2048 }; /* more than any page of up to 1,024 letters has, with the zero byte behind it */

/* Writes the page of n letters and a zero byte behind it; how many bytes the page has. */
size_t second_page(const unsigned char *letters, size_t n, char *page);
#endif

/* The library cuts the letters into lines, and a line into groups; here no line is ever cut, and each letter finds its own place. */
#include "second_page.h"
#include <stdio.h>

static char small(unsigned char letter)
{
    switch (letter) {
    case 'A': return 'a';
    case 'C': return 'c';
    case 'G': return 'g';
    case 'T': return 't';
    default: return '?'; /* no letter of a record: no page agrees with it */
    }
}

/* A letter behind sixty others begins a line with its place, counted from 1; one behind ten others has a blank before it. */
size_t second_page(const unsigned char *letters, size_t n, char *page)
{
    int at = sprintf(page, "ORIGIN");
    for (size_t i = 0; i < n; i++) {
        if (i % 60 == 0) at += sprintf(page + at, "\n%9zu", i + 1);
        at += sprintf(page + at, i % 10 == 0 ? " %c" : "%c", small(letters[i]));
    }
    return (size_t)(at + sprintf(page + at, "\n//\n"));
}

/* The list that mirrorlist must print, by trying every stretch: reads letters from standard input, passing over line
 * ends, and prints a BED line for each mirror repeat at its first place. It knows neither FASTA nor the library.
 * Usage: lines IDENTIFIER */
#include "brute.h"
#include <stdio.h>
#include <string.h>

enum { MOST = 4096 };

/* Whether the stretch stands at an earlier place too. It stops at the first one, so that AAA.. takes no minutes. */
static int stands_before(const unsigned char *s, size_t start, size_t length)
{
    for (size_t i = 0; i < start; i++)
        if (memcmp(s + i, s + start, length) == 0) return 1;
    return 0;
}

int main(int argc, char **argv)
{
    static unsigned char s[MOST];
    size_t n = 0;
    int byte;

    if (argc != 2) return 2;
    while ((byte = getchar()) != EOF) {
        if (byte == '\n') continue;
        if (n == MOST) return 2;
        s[n++] = (unsigned char)byte;
    }
    for (size_t end = 1; end <= n; end++)
        for (size_t start = 0; start < end; start++)
            if (brute_palindrome(brute_rule(PLAIN), s + start, end - start) && !stands_before(s, start, end - start))
                printf("%s\t%zu\t%zu\n", argv[1], start, end);
    return 0;
}

/* A record printed as in GenBank through the library: the page goes to the output.
 * Usage: outside_genbank plain|inverted|turned <LETTERS: 0 to 1,024 letters A, C, G and T, and no end of line.
 *
 * The letters join from the middle on at both ends in turn. A turned record is opened plain and turned to the inverted reading
 * half-way. The page must take the bytes that the header says for so many letters, and is lent just these. */
#include "mirror.h"
#include <stdio.h>
#include <string.h>

enum { MOST = 1024 };

static char letters[MOST + 2];
static uint8_t store[MIRROR_STORE_SIZE(MOST)], page[MIRROR_GENBANK_SIZE(MOST)];

/* whether the record was made */
static int make_record(size_t n, int inverted, int turned)
{
    size_t left = n / 2, right = n / 2;
    unsigned refused = mirror_refusal((inverted ? mirror_open_inverted : mirror_open)(store, sizeof store, MOST));
    while (left > 0 || right < n) {
        if (turned && left == n / 4) refused |= mirror_refusal(mirror_turn_inverted(store, sizeof store));
        if (right < n) refused |= mirror_refusal(mirror_add_right(store, sizeof store, (unsigned char)letters[right++]));
        if (left > 0) refused |= mirror_refusal(mirror_add_left(store, sizeof store, (unsigned char)letters[--left]));
    }
    if (turned) refused |= mirror_refusal(mirror_turn_inverted(store, sizeof store)); /* two letters have no way between */
    return refused == 0;
}

int main(int argc, char **argv)
{
    size_t n = fread(letters, 1, MOST + 1, stdin), size = MIRROR_GENBANK_SIZE(n);
    const char *way = argc == 2 ? argv[1] : "";
    int inverted = strcmp(way, "inverted") == 0, turned = strcmp(way, "turned") == 0;
    if ((!inverted && !turned && strcmp(way, "plain") != 0) || n > MOST || strspn(letters, "ACGT") != n) {
        fputs("not plain, inverted or turned, or not 0 to 1,024 letters A, C, G and T\n", stderr);
        return 2;
    }
    if (!make_record(n, inverted, turned)) {
        fputs("the library refuses the letters\n", stderr);
        return 1;
    }
    if (mirror_genbank(store, sizeof store, page, size) != (uint64_t)size << 32) {
        fputs("the library does not print the record in the bytes that the header says\n", stderr);
        return 1;
    }
    return fwrite(page, 1, size, stdout) != size;
}

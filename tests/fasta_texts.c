/* Bytes that mean something to a reader come far more often than chance would bring them, and slips strike the first
 * line as often as all the others: that is where the rules are. */
#include "fasta_texts.h"
#include <ctype.h>
#include <string.h>

static uint64_t state;

void fasta_seed(uint64_t seed)
{
    state = seed * 2654435761u + 1;
}

unsigned fasta_next(unsigned below)
{
    state ^= state << 13; state ^= state >> 7; state ^= state << 17;
    return (unsigned)((state >> 33) % below);
}

static size_t put(uint8_t *text, size_t n, const char *what)
{
    size_t m = strlen(what);
    memcpy(text + n, what, m);
    return n + m;
}

static size_t line_end(uint8_t *text, size_t n)
{
    return put(text, n, fasta_next(3) ? "\n" : "\r\n");
}

size_t fasta_good(uint8_t *text)
{
    static const char *rests[] = {"", " ", "\t", " a mirror\trepeat", "\t>N\r-", " \r"};
    size_t n = put(text, 0, ">"), identifier = 1 + fasta_next(fasta_next(4) ? 6 : 32);
    size_t letters = fasta_next(20) ? fasta_next(40) : 1018 + fasta_next(10);
    size_t width = 1 + fasta_next(fasta_next(2) ? 8 : 80);
    unsigned masked = fasta_next(3) ? fasta_next(5) : 0; /* of four letters so many are small */

    for (size_t i = 0; i < identifier; i++) text[n++] = (uint8_t)"AZaz09_eT5"[fasta_next(10)];
    n = line_end(text, put(text, n, rests[fasta_next(6)]));
    for (size_t i = 0; i < letters; i++) {
        text[n++] = (uint8_t)(fasta_next(4) < masked ? "acgt" : "ACGT")[fasta_next(4)];
        while ((i + 1) % width == 0 && fasta_next(3)) n = line_end(text, n);
    }
    return fasta_next(2) ? line_end(text, n) : n;
}

void fasta_capitals(uint8_t *to, const uint8_t *text, size_t length)
{
    size_t i = 0;
    for (; i < length && text[i] != '\n'; i++) to[i] = text[i];
    for (; i < length; i++) to[i] = (uint8_t)toupper(text[i]);
}

static uint8_t some_byte(void)
{
    static const char telling[] = ">>\r\r\n\n \tACGTNacgtnUu;-*_@[`{/:"; /* the zero byte at its end counts too */
    return fasta_next(4) ? (uint8_t)telling[fasta_next(sizeof telling)] : (uint8_t)fasta_next(256);
}

static size_t insert(uint8_t *text, size_t length, size_t at, const uint8_t *what, size_t n)
{
    memmove(text + at + n, text + at, length - at);
    memcpy(text + at, what, n);
    return length + n;
}

size_t fasta_slip(uint8_t *text, size_t length)
{
    uint8_t piece[SLIP_ROOM];
    size_t near = length < 40 || fasta_next(2) ? length : 40, at = fasta_next((unsigned)near + 1), n;
    unsigned what = fasta_next(7);

    piece[0] = some_byte();
    if (what < 2) return insert(text, length, at, piece, 1);
    if (what == 2) { /* a stretch stands twice */
        n = fasta_next(SLIP_ROOM);
        if (n > length - at) n = length - at;
        memcpy(piece, text + at, n);
        return insert(text, length, at, piece, n);
    }
    if (at == length) return length;
    if (what == 3) return at; /* the rest is cut off */
    if (what == 4) { /* a byte is lost */
        memmove(text + at, text + at + 1, length - at - 1);
        return length - 1;
    }
    text[at] = piece[0];
    return length;
}

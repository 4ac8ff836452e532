/* Cuts the text into lines first and judges each line by itself; the library goes byte by byte. */
#include "second_reader.h"
#include <string.h>

/* One line: its bytes without the line end. */
typedef struct { const uint8_t *bytes; size_t length; } line;

/* Cuts the next line off the text at *at. "A line ends with LF, CR LF or the end of input." */
static line next_line(const uint8_t *text, size_t length, size_t *at)
{
    line l = {text + *at, length - *at};
    const uint8_t *lf = l.length ? memchr(l.bytes, '\n', l.length) : NULL;
    if (lf == NULL) {
        *at = length;
        return l;
    }
    l.length = (size_t)(lf - l.bytes);
    *at += l.length + 1;
    if (l.length > 0 && l.bytes[l.length - 1] == '\r') l.length--;
    return l;
}

/* The identifier's length in a first line, 0 where the line is not `>` and an identifier ended as the paper says. */
static size_t identifier_of(line l)
{
    static const char allowed[] = "ABCDEFGHIJKLMNOPQRSTUVWXYZabcdefghijklmnopqrstuvwxyz0123456789_";
    size_t n = 0;
    if (l.length == 0 || l.bytes[0] != '>') return 0;
    while (1 + n < l.length && l.bytes[1 + n] != 0 && strchr(allowed, l.bytes[1 + n])) n++;
    if (n > 32) return 0;
    if (1 + n == l.length || l.bytes[1 + n] == ' ' || l.bytes[1 + n] == '\t') return n;
    return 0;
}

/* The letter that a byte of a later line stands for, in either case; 0 where it stands for none. */
static unsigned char letter_of(uint8_t byte)
{
    static const char pairs[] = "AaCcGgTt";
    const char *at = byte == 0 ? NULL : strchr(pairs, byte);
    return at == NULL ? 0 : (unsigned char)pairs[(at - pairs) / 2 * 2];
}

/* The letters of a later line join the reading; the number of the line's first fault. */
static unsigned add_line(second_reading *r, line l)
{
    if (l.length > 0 && l.bytes[0] == '>') return 11;
    for (size_t i = 0; i < l.length; i++) {
        unsigned char letter = letter_of(l.bytes[i]);
        if (letter == 0) return 4;
        if (r->count == MOST_LETTERS) return 5;
        r->letters[r->count++] = letter;
    }
    return 0;
}

second_reading second_read(const uint8_t *text, size_t length)
{
    second_reading r = {.number = 10};
    size_t at = 0;
    r.identifier = identifier_of(next_line(text, length, &at));
    if (r.identifier == 0) return r;
    r.number = 0;
    while (at < length && r.number == 0) r.number = add_line(&r, next_line(text, length, &at));
    return r;
}

/* The twin of mirror_fasta: the whole text is judged before a letter is written, so there are two passes. */
#include <stdbool.h>

#include "twin.h"

enum { ROOM = 1024, NAME_MOST = 32 };

static bool name_byte(uint8_t c)
{
    return (c >= 'A' && c <= 'Z') || (c >= 'a' && c <= 'z') || (c >= '0' && c <= '9') || c == '_';
}

/* The capital of a letter in either case; of no other byte a letter. */
static uint8_t capital(uint8_t c) { return c & 0xdf; }

static bool is_letter(uint8_t c)
{
    c = capital(c);
    return c == 'A' || c == 'C' || c == 'G' || c == 'T';
}

static bool line_end(const uint8_t *text, size_t length, size_t at)
{
    return text[at] == '\n' || (text[at] == '\r' && at + 1 < length && text[at + 1] == '\n');
}

/* The identifier's length, or 0 where the first line is not as it must be; `at` becomes the place behind the line. */
static size_t first_line(const uint8_t *text, size_t length, size_t *at)
{
    size_t i = 1;
    if (length == 0 || text[0] != '>')
        return 0;
    while (i < length && name_byte(text[i]))
        i++;
    size_t name = i - 1;
    if (name > NAME_MOST || (i < length && text[i] != ' ' && text[i] != '\t' && !line_end(text, length, i)))
        return 0;
    while (i < length && text[i] != '\n')
        i++;
    *at = i + 1;
    return name;
}

/* The refusal number of the later lines, and how many letters they hold. */
static int judge(const uint8_t *text, size_t length, size_t at, size_t *letters)
{
    bool line_start = true;
    for (; at < length; at++) {
        if (line_start && text[at] == '>')
            return 11;
        if (text[at] == '\n')
            line_start = true;
        else if (is_letter(text[at])) {
            if (*letters == ROOM)
                return 5;
            ++*letters;
            line_start = false;
        } else if (!line_end(text, length, at))
            return 4;
    }
    return 0;
}

uint64_t twin_fasta(const uint8_t *text, size_t length, uint8_t *out, size_t out_length)
{
    size_t at = 0, letters = 0, name = first_line(text, length, &at), n = 0;
    if (name == 0)
        return 10;
    int number = judge(text, length, at, &letters);
    if (number != 0 || out_length < letters)
        return number != 0 ? (uint64_t)number : 9;
    for (; at < length; at++)
        if (is_letter(text[at]))
            out[n++] = capital(text[at]);
    return (uint64_t)name << 32 | (uint64_t)letters << 48;
}

/* The FASTA reader through the C boundary, judged by a second reader: the corner cases with their keys, every byte in a
 * later line, every short text over the bytes that mean something, texts that random slips made of good ones, and texts
 * beyond 65,536 bytes.
 * Usage: fasta [seed [texts]] */
#include "fasta_check.h"
#include "fasta_texts.h"
#include <stdio.h>
#include <stdlib.h>
#include <string.h>

static uint8_t text[MOST_TEXT];

/* every text of up to `most` bytes of the alphabet behind the given beginning */
static void every_short(const char *beginning, const char *alphabet, unsigned most)
{
    size_t start = strlen(beginning);
    unsigned base = (unsigned)strlen(alphabet);
    unsigned long texts = 1;
    memcpy(text, beginning, start);
    for (unsigned n = 0; n <= most; n++, texts *= base)
        for (unsigned long code = 0; code < texts; code++) {
            unsigned long rest = code;
            for (unsigned i = 0; i < n; i++, rest /= base) text[start + i] = (uint8_t)alphabet[rest % base];
            fasta_check(text, start + n);
        }
}

/* every byte between two letters of a later line */
static void every_byte(void)
{
    memcpy(text, ">e\nA?c\n", 7);
    for (unsigned byte = 0; byte < 256; byte++) {
        text[4] = (uint8_t)byte;
        fasta_check(text, 7);
    }
}

/* a good text or a corner case, and up to three slips */
static void with_slips(void)
{
    const fasta_key *key = &fasta_keys[fasta_next((unsigned)fasta_keys_count)];
    int stored = fasta_next(3) == 0 && key->filled < 2000;
    size_t length = stored ? fasta_key_text(key, text) : fasta_good(text);
    for (unsigned slips = fasta_next(4); slips > 0; slips--) length = fasta_slip(text, length);
    fasta_check(text, length);
}

static void any_bytes(void)
{
    size_t start = fasta_next(2) ? fasta_good(text) : 0, length = start + fasta_next(60);
    for (size_t i = start; i < length; i++) text[i] = (uint8_t)fasta_next(256);
    fasta_check(text, length);
}

/* 1,024 letters scattered over nearly 200,000 bytes of line ends, and then a slip in them */
static void long_text(void)
{
    size_t length = (size_t)sprintf((char *)text, ">long_%u\n", fasta_next(1000)), start = length;
    length += 190 * 1024;
    memset(text + start, '\n', length - start);
    for (size_t i = 0; i < 1024; i++) text[start + 190 * i + fasta_next(190)] = (uint8_t)"ACGTacgt"[fasta_next(8)];
    if (fasta_next(2)) text[start + fasta_next((unsigned)(length - start))] = (uint8_t)"AaNn>\r"[fasta_next(6)];
    fasta_check(text, length);
}

/* an ignored rest of more than 65,536 bytes of any value, and a line that holds letters and perhaps one other byte */
static void long_rest(void)
{
    size_t length = (size_t)sprintf((char *)text, ">rest%c", " \t"[fasta_next(2)]), end = 65000 + fasta_next(70000);
    for (; length < end; length++) {
        uint8_t byte = (uint8_t)fasta_next(256);
        text[length] = byte == '\n' ? '\r' : byte;
    }
    text[length++] = '\n';
    for (unsigned letters = fasta_next(30); letters > 0; letters--) text[length++] = (uint8_t)"ACGT"[fasta_next(4)];
    if (fasta_next(2)) text[length++] = (uint8_t)fasta_next(256);
    fasta_check(text, length);
}

int main(int argc, char **argv)
{
    unsigned long texts = argc > 2 ? strtoul(argv[2], NULL, 10) : 200000;
    fasta_seed(argc > 1 ? strtoull(argv[1], NULL, 10) : 20251115);
    for (size_t i = 0; i < fasta_keys_count; i++) fasta_check_key(&fasta_keys[i]);
    every_byte();
    every_short("", ">A \r\n", 7);
    every_short(">e\n", ">AN\r\n", 6);
    every_short(">e\n", ">atn\n", 6);
    for (unsigned long i = 0; i < texts; i++) with_slips();
    for (unsigned long i = 0; i < texts / 10; i++) any_bytes();
    for (unsigned long i = 0; i < texts / 5000; i++) long_text();
    for (unsigned long i = 0; i < texts / 2000; i++) long_rest();
    printf("%zu keys, %lu calls agree with the second reader:", fasta_keys_count, fasta_calls);
    for (unsigned i = 0; i < 256; i++)
        if (fasta_seen[i]) printf(" %lu of %u", fasta_seen[i], i);
    printf("\n");
    return 0;
}

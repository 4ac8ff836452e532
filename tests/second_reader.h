/* A second FASTA reader, written from the paper's words line by line. It shares nothing with the library, so that a slip
 * in one of them shows where the two are compared. */
#ifndef SECOND_READER_H
#define SECOND_READER_H
#include <stddef.h>
#include <stdint.h>

enum { MOST_LETTERS = 1024 };

typedef struct {
    unsigned number;                 /* the refusal number, 0 where the text is good */
    size_t identifier;               /* the identifier's length */
    size_t count;                    /* the letters that were read, before the fault where there is one */
    unsigned char letters[MOST_LETTERS];
} second_reading;

/* What the text says; it knows of no output buffer, so it never answers 9. */
second_reading second_read(const uint8_t *text, size_t length);
#endif

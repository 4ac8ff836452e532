/* The corner cases of FASTA with their keys, written out by hand from the paper. */
#ifndef FASTA_KEYS_H
#define FASTA_KEYS_H
#include <stddef.h>

/* A text, and what must be answered for it. The text is `before`, then `filled` letters A, then `after`. */
typedef struct {
    const char *name;
    const char *before;
    size_t before_length;
    size_t filled;
    const char *after;
    size_t after_length;
    unsigned number;
    unsigned identifier;
    unsigned count;
    const char *letters; /* the letters in file order; NULL where they are `count` letters A, or where it is refused */
} fasta_key;

extern const fasta_key fasta_keys[];
extern const size_t fasta_keys_count;
#endif

/* One FASTA text through mirror_fasta, judged by the second reader: every answer and every lent byte, with output buffers
 * of every size around the number of letters, at either side of a page that may not be touched. */
#ifndef FASTA_CHECK_H
#define FASTA_CHECK_H
#include "fasta_keys.h"
#include "second_reader.h"

enum { MOST_TEXT = 200 * 1024 };

/* How many calls were made, and how many of them must answer each number. */
extern unsigned long fasta_calls, fasta_seen[256];

/* Stops the test where an answer or a byte is not what the second reader says, or not the same for the text with its later
 * lines in capitals. */
void fasta_check(const uint8_t *text, size_t length);
/* The text of a key, written to `text`, which has MOST_TEXT bytes; its length. */
size_t fasta_key_text(const fasta_key *key, uint8_t *text);
/* Stops the test where the second reader does not say what the key says; then the same with the library. */
void fasta_check_key(const fasta_key *key);
#endif

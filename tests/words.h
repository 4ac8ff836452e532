/* Words for records of either reading, and the ways in which one becomes a record that is followed (followed.h). */
#ifndef WORDS_H
#define WORDS_H
#include <stddef.h>

/* the kinds of long words: with about as many repeats as letters, and of random letters */
enum { ALL_A, PAIRS, FIBONACCI, THUE_MORSE, TWO_KINDS, FOUR_KINDS, WORDS, WORD_LENGTH = 1024 };

/* each way gives the repeats their rows in another order, and behind letters that go again they have rows that were taken before */
enum { AT_THE_RIGHT, AT_THE_LEFT, AT_BOTH_ENDS, TURNED, BEHIND_OTHERS, WAYS };

/* Writes WORD_LENGTH letters of the kind, for a record that is read so. */
void choose_word(int kind, unsigned reading, unsigned char *word);
/* Makes the record of n letters that is read so in the end. */
void make_record(unsigned reading, const unsigned char *word, size_t n, int way);
#endif

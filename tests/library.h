/* The library's calls as a table, so that one program can hold two libraries side by side. A new call of include/mirror.h
 * gets its name here, and that of its kind for calls.h. */
#ifndef LIBRARY_H
#define LIBRARY_H
#include "mirror.h"

/* the calls that open a store, in the order of the readings that they give it */
#define EACH_OPENING(X) X(OPEN, open) X(OPEN_INVERTED, open_inverted)

/* the calls that turn a record to a reading, in that order too */
#define EACH_TURN(X) X(TURN_PLAIN, turn_plain) X(TURN_INVERTED, turn_inverted)

/* the calls that test the store that they take */
#define EACH_STORE_CALL(X)                                                                                        \
    X(ADD_LEFT, add_left) X(ADD_RIGHT, add_right) X(REMOVE_LEFT, remove_left) X(REMOVE_RIGHT, remove_right)       \
    EACH_TURN(X)                                                                                                  \
    X(LENGTH, length) X(COUNT, count) X(LONGEST, longest) X(LONGEST_LENGTH, longest_length)                       \
    X(LONGEST_LEFT, longest_left) X(LONGEST_RIGHT, longest_right) X(OCCURRENCES, occurrences)                     \
    X(LETTER, letter) X(ROW, row) X(FREQUENCY, frequency) X(SPELL, spell) X(FIND, find) X(LIST, list)             \
    X(GENBANK, genbank) X(MINIMAL_UNIQUE, minimal_unique) X(PIECES, pieces) X(MARK, mark)

/* the calls that take a text and no store */
#define EACH_TEXT_CALL(X) X(FASTA, fasta) X(UNCERTAIN, uncertain)

#define EACH_CALL(X) EACH_OPENING(X) EACH_STORE_CALL(X) EACH_TEXT_CALL(X)

#define LIBRARY_ENTRY(kind, name) __typeof__(mirror_##name) *name;
#define LIBRARY_ONE(kind, name) +1
#define LIBRARY_LINKED(kind, name) .name = mirror_##name,

typedef struct {
    EACH_CALL(LIBRARY_ENTRY)
} library;

enum { LIBRARY_CALLS = 0 EACH_CALL(LIBRARY_ONE) };

/* The table of the library that a program is linked with. */
#define LIBRARY_OF_THIS_PROGRAM {EACH_CALL(LIBRARY_LINKED)}

extern const char *const library_names[LIBRARY_CALLS];
/* The number of the call of this name, LIBRARY_CALLS where there is none. */
unsigned library_call(const char *name);
/* Fills the table from a shared library; a call that it does not have is NULL, and has[..] 0. Ends the program where the
 * file is no library. */
void library_load(library *to, const char *path, unsigned char has[LIBRARY_CALLS]);
#endif

/* Every call of the library beside the same call of the twin, behind one signature, so that the check, the clock and
 * the stack measurement go over one table. */
#ifndef BENCH_CALLS_H
#define BENCH_CALLS_H

#include <stdbool.h>
#include <stddef.h>
#include <stdint.h>

#include "../tests/library.h"

enum { CAPACITY_MOST = 1024, STORE_MOST = 48 * CAPACITY_MOST + 256, OUT_MOST = 45 * CAPACITY_MOST };
/* The list needs a bit of scratch for each letter, and is lent four bytes: an earlier library needs as many, and is run on the same
 * sittings beside today's (beside.c). Today's leaves what it does not need. */
enum { SCRATCH_MOST = 4 * CAPACITY_MOST, SCRATCH_PAINT = 0xa5, PIECE_MOST = CAPACITY_MOST + 2 };

/* The identifier of every list and of every line of a sheet; a list has a line for each palindrome, and its numbers, tabs and LF take
 * at most eleven bytes. */
#define IDENTIFIER "chr1_sample"
#define NAME (const uint8_t *)IDENTIFIER, sizeof IDENTIFIER - 1
enum { LINE_MOST = sizeof IDENTIFIER - 1 + 11, LIST_MOST = LINE_MOST * CAPACITY_MOST };

/* The calls in the order of their table, and last the spelling call once more beside a twin that loops instead of
 * recursing. Both openings stand first, so that CALL_OPEN + reading gives that reading; CALL_TURN_PLAIN + reading turns
 * to it. Frequency stands there twice: the row of the longest palindrome, and that of the most frequent one. Finding stands
 * there five times: the longest palindrome, and four pieces that are absent (make_pieces). Marking gets the record's own list;
 * sheets.h has others. */
enum {
    CALL_OPEN,
    CALL_OPEN_INVERTED,
    CALL_ADD_LEFT,
    CALL_ADD_RIGHT,
    CALL_REMOVE_LEFT,
    CALL_REMOVE_RIGHT,
    CALL_TURN_PLAIN,
    CALL_TURN_INVERTED,
    CALL_LENGTH,
    CALL_COUNT,
    CALL_LETTER,
    CALL_LONGEST,
    CALL_LONGEST_LENGTH,
    CALL_LONGEST_LEFT,
    CALL_LONGEST_RIGHT,
    CALL_ROW,
    CALL_FREQUENCY,
    CALL_FREQUENCY_OFTEN,
    CALL_OCCURRENCES,
    CALL_SPELL,
    CALL_FIND,
    CALL_FIND_OUTSIDE,
    CALL_FIND_INSIDE,
    CALL_FIND_ALIKE,
    CALL_FIND_LONGER,
    CALL_LIST,
    CALL_GENBANK,
    CALL_MINIMAL_UNIQUE,
    CALL_PIECES,
    CALL_MARK,
    CALLS,
    CALL_SPELL_BY_LOOP = CALLS,
    PAIRS,
    FINDS = CALL_LIST - CALL_FIND
};

struct piece {
    uint8_t letters[PIECE_MOST];
    size_t length;
};

/* What a call is lent and told; the same store serves every call. */
struct sitting {
    uint8_t store[STORE_MOST], scratch[SCRATCH_MOST], out[OUT_MOST];
    uint8_t sheet[LIST_MOST];
    struct piece pieces[FINDS];
    size_t length, scratch_length, out_length, sheet_length;
    uint64_t capacity, letter, place, row, often;
};

struct call {
    const char *name;
    bool changes;
    uint64_t (*library)(struct sitting *);
    uint64_t (*twin)(struct sitting *);
};

/* The library whose calls are run: the one that the program is linked with, until another is put in its place. */
extern const library linked_library, *measured;

extern const struct call calls[PAIRS];

/* Whether a call is the opening of the other reading: a record is timed with its own. */
static inline bool opens_otherwise(int call, int reading)
{
    return call <= CALL_OPEN_INVERTED && call != CALL_OPEN + reading;
}

static inline bool is_turn(int call) { return call == CALL_TURN_PLAIN || call == CALL_TURN_INVERTED; }

static inline bool is_frequency(int call) { return call == CALL_FREQUENCY || call == CALL_FREQUENCY_OFTEN; }

static inline bool is_find(int call) { return call >= CALL_FIND && call < CALL_FIND + FINDS; }

/* Whether a call is carried out on records of a reading, 0 or 1: inverted ones are not cut into pieces. */
static inline bool works_on(int call, int reading) { return call != CALL_PIECES || reading == 0; }

/* A piece of n letters that reads alike, but for the middle letter of an odd one in an inverted record. In its centre a G faces
 * its partner, which is so in none of the words but random DNA: a search from the centre outwards would end there at once, and
 * so has the least to set against a comparison of all pairs. */
void make_alike(struct piece *to, int reading, size_t n);

/* Breaks a pair, counted from the outside from 1, by another letter on its right. */
void break_pair(struct piece *piece, size_t pair);

/* The pieces that are absent from a record of n letters: one whose first pair breaks, one whose innermost pair does, one that
 * reads alike and one that does and is longer than the record, each of an even length. */
void make_pieces(struct sitting *s, int reading, size_t n);

/* The pair that breaks in the piece of a find on a record of n letters, 0 for none. */
unsigned broken_pair(int find, size_t n);

/* The palindrome that stands most often among n letters, and at how many places; of length 0 where none stands. What lies in the
 * middle of a palindrome stands as often as it or more, so the shortest are enough: single letters, and pairs in an inverted
 * record. */
size_t make_often(struct piece *to, int reading, const uint8_t *letters, size_t n);

/* A record of n letters of a word in a reading, 0 or 1, at the given capacity, with arguments that make each call work
 * hard: the row and the first piece are those of the longest palindrome; `often` is the row of the most frequent one; the sheet is
 * the record's own list. The scratch is painted, so that it shows what a call clears there. */
void seat(struct sitting *s, int word, int reading, size_t n, size_t capacity);

/* Puts the list of the record as it is in the place of the sheet. */
void hand_in_list(struct sitting *s);

#endif

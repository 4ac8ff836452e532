/* Mirror repeats of a DNA record that is worked from both ends: the calls of a host in C.
 *
 * A record lives in a byte store that the host lends. Every call that takes a store, but for opening, tests it first, so
 * that a damaged one is refused and never followed. Opening needs no good store: it makes an empty record of whatever the
 * bytes held, a live record too. Buffers of one call must not overlap. Nothing is allocated.
 *
 * A record is plain or inverted, as it was opened or last turned, and every call that takes a store works on either, but for
 * mirror_pieces, which cuts plain records only. A repeat of a plain record is a stretch that equals its reversal; of an
 * inverted one, a stretch that equals its reversal with every letter replaced by its partner, A with T and C with G, as
 * restriction sites do.
 *
 * Every call answers one number: byte 0 (lowest) is the refusal number, 0 where the call was carried out; byte 1 a
 * flag; bytes 2 and 3 a row; bytes 4 and 5 a first, bytes 6 and 7 a second number. The two sums of mirror_occurrences alone
 * are laid out otherwise. A refusal is its number and zero above, and leaves every lent byte as it was. docs/HOST.md says
 * which call answers what. */
#ifndef MIRROR_H
#define MIRROR_H

#include <stddef.h>
#include <stdint.h>

#ifdef __cplusplus
extern "C" {
#endif

/* The bytes that a store of this capacity (1 to 1,024 letters) needs. */
#define MIRROR_STORE_SIZE(capacity) (48 * (size_t)(capacity) + 256)
/* The scratch that a list of so many letters needs, one bit for each, rounded up to whole bytes; and output that is always
 * enough for it. */
#define MIRROR_LIST_SCRATCH(letters) (((size_t)(letters) + 7) / 8)
#define MIRROR_LIST_SIZE(letters) (45 * (size_t)(letters))
/* The bytes that a GenBank page of so many letters has, 1,317 at most. The argument is evaluated three times. */
#define MIRROR_GENBANK_SIZE(letters) (10 + (size_t)(letters) + ((size_t)(letters) + 9) / 10 + 10 * (((size_t)(letters) + 59) / 60))
/* Output that is always enough for the minimal unique repeats of so many letters, four bytes for each that there is. */
#define MIRROR_MINIMAL_UNIQUE_SIZE(letters) (4 * (size_t)(letters))
/* Output that is always enough for the ends of the fewest pieces of so many letters, two bytes for each piece. */
#define MIRROR_PIECES_SIZE(letters) (2 * (size_t)(letters))
/* The bytes of a mark sheet: four counts of eight bytes each. */
#define MIRROR_MARKS_SIZE 32

enum {
    MIRROR_CAPACITY = 1,    /* opening: capacity outside 1 to 1,024 */
    MIRROR_STORE_SHORT = 2, /* opening: store too short */
    MIRROR_DAMAGED = 3,     /* store not good, or too short for its capacity */
    MIRROR_NO_LETTER = 4,   /* not A, C, G, T; FASTA: nor a, c, g, t; uncertain: no code */
    MIRROR_FULL = 5,        /* record full; FASTA, uncertain: over 1,024 letters or codes */
    MIRROR_EMPTY = 6,       /* record empty */
    MIRROR_NO_PLACE = 7,    /* place not in record; row free or over capacity + 1; frequency: row 0 or 1 too */
    MIRROR_NO_PIECE = 8,    /* piece empty */
    MIRROR_NO_ROOM = 9,     /* buffer shorter than needed */
    MIRROR_IDENTIFIER = 10, /* identifier not 1 to 32 letters, digits or underscores; FASTA: first line not right */
    MIRROR_SECOND_HEADER = 11, /* FASTA: a later line begins with `>` */
    MIRROR_NO_SHEET = 13,   /* mark: a line that is not three fields ended by LF, or whose numbers are none */
    MIRROR_INVERTED = 14    /* pieces: record inverted */
};

uint64_t mirror_open(uint8_t *store, size_t length, uint64_t capacity);
/* Opens an inverted record; all else as mirror_open. Its repeats have even length, and letters may stand without any: then
 * the longest is length 0 at place 0, and an end without one answers row 1, the empty string's, and no flag. */
uint64_t mirror_open_inverted(uint8_t *store, size_t length, uint64_t capacity);
/* An addition at the right of a plain record reports how much its search passed as the first number: of the repeats that end
 * the record, longest first, then the empty and the imaginary string, those before the first that has the new letter just to
 * its left; the imaginary one always serves, so the first letter of a record reports 1. At the left, and in an inverted
 * record, it reports 0. */
uint64_t mirror_add_left(uint8_t *store, size_t length, uint64_t letter);
uint64_t mirror_add_right(uint8_t *store, size_t length, uint64_t letter);
uint64_t mirror_remove_left(uint8_t *store, size_t length);
uint64_t mirror_remove_right(uint8_t *store, size_t length);
/* Turn a record to a reading: the letters and the capacity stay, and the table is that of the same letters in this
 * reading, so every repeat of the other reading goes and every one of this comes in. Row numbers from before are void: the
 * rows are those of a record opened in this reading, with the letters added at the right in order. A record that has the
 * reading already keeps every byte, and its rows. */
uint64_t mirror_turn_plain(uint8_t *store, size_t length);
uint64_t mirror_turn_inverted(uint8_t *store, size_t length);
uint64_t mirror_length(const uint8_t *store, size_t length);
uint64_t mirror_count(const uint8_t *store, size_t length);
uint64_t mirror_longest(const uint8_t *store, size_t length);
/* The length of the longest repeat, read from the store once that is tested: 0 for an empty record and for one without a
 * repeat, and else what mirror_longest answers as its length. */
uint64_t mirror_longest_length(const uint8_t *store, size_t length);
uint64_t mirror_longest_left(const uint8_t *store, size_t length);
uint64_t mirror_longest_right(const uint8_t *store, size_t length);
uint64_t mirror_letter(const uint8_t *store, size_t length, uint64_t place);
uint64_t mirror_row(const uint8_t *store, size_t length, uint64_t row);
/* The number of places where a row's repeat stands, places that overlap among them. Rows 0 and 1 hold no repeat and are
 * refused with 7 as free rows are. */
uint64_t mirror_frequency(const uint8_t *store, size_t length, uint64_t row);
/* The number of all repeats counted by place, worked out in two ways, each a number of three bytes: mirror_by_rows is the sum of
 * the rows' frequencies, mirror_by_ends the sum over the right ends of the repeats that end there. The two are equal, and at
 * most 524,800; 0 for a record without a repeat. */
uint64_t mirror_occurrences(const uint8_t *store, size_t length);
uint64_t mirror_spell(const uint8_t *store, size_t length, uint64_t row, uint8_t *out, size_t out_length);
/* Whether a piece is a repeat of the record, and its row; and as the first number where it and its reversal disagree first: the
 * pair of letters as far from the two ends, counted from the outside from 1, 0 where all agree, and 65,535 for that pair and
 * any later one. In an inverted record a letter must be the partner of the one that faces it; the middle letter of an odd piece
 * faces itself and is the last pair. So 0 with no flag says that the piece reads alike and does not stand in the record. */
uint64_t mirror_find(const uint8_t *store, size_t length, const uint8_t *piece, size_t piece_length);
/* The list of the repeats as BED lines, and how many bytes it has as the first number. It takes the scratch of
 * MIRROR_LIST_SCRATCH for the letters now in the record, where no repeat stands too; these bytes may hold anything before and
 * are zeros afterwards. Bytes beyond them stay, and so does output beyond the list. */
uint64_t mirror_list(const uint8_t *store, size_t length, const uint8_t *identifier, size_t identifier_length,
                     uint8_t *scratch, size_t scratch_length, uint8_t *out, size_t out_length);
/* The record printed as in the GenBank flat file, from the line ORIGIN to the line //, and how many bytes that has as the first
 * number: sixty letters a line in lower case, behind the place of the line's first letter counted from 1. The page is the same
 * in either reading. It takes MIRROR_GENBANK_SIZE bytes for the letters now in the record; output beyond the page stays. */
uint64_t mirror_genbank(const uint8_t *store, size_t length, uint8_t *out, size_t out_length);
/* The minimal unique repeats: those that stand once only and whose inner stretch, the repeat without its first and last letter,
 * is empty or stands at least twice. How many there are is the first number, never more than the record has letters. Where each
 * stands goes to the front of `out`, by start: the place of its first letter and the place one past its last, two bytes each,
 * low byte first, which mirror_start and mirror_end read. So each takes four bytes; output beyond them stays. */
uint64_t mirror_minimal_unique(const uint8_t *store, size_t length, uint8_t *out, size_t out_length);
/* A plain record cut into as few repeats as it can be. How many pieces that takes is the first number: never more than the record
 * has letters, 1 exactly if the whole record is a repeat, 0 for an empty one. Where each piece ends goes to the front of `out`, from
 * the left, the place one past its last letter in two bytes, low byte first, which mirror_piece_end reads; output beyond them stays.
 * Of all cuttings into so few it is the one whose last piece is the longest, then the one before it, and so on. An inverted record
 * may have no cutting and is refused with 14, an empty one too, however short `out` is. */
uint64_t mirror_pieces(const uint8_t *store, size_t length, uint8_t *out, size_t out_length);
/* Marks a sheet of BED lines against the record; the flag says whether it has full marks. A line is identifier, tab, start, tab,
 * end, LF, and no field holds a tab or LF; start and end are one to four digits, 0 or without a leading 0. Any other line, a last
 * one without its LF too, has the whole sheet refused with 13. A line is right if its identifier is the one given, start is below
 * end, end is at most the record's length, a repeat stands there, at whatever place of it, and no right line above names the same
 * repeat; repeated if only the last of these fails; and wrong otherwise. The first MIRROR_MARKS_SIZE bytes of `marks` become the
 * numbers of right, repeated and wrong lines and of missing repeats, those that no right line names, which mirror_right,
 * mirror_repeated, mirror_wrong and mirror_missing read; what they held before is replaced, and later bytes stay. A sheet of any
 * length is read. It has full marks if it has a right line for each repeat and no other line: an empty one where there is none. */
uint64_t mirror_mark(const uint8_t *store, size_t length, const uint8_t *identifier, size_t identifier_length,
                     const uint8_t *sheet, size_t sheet_length, uint8_t *marks, size_t marks_length);
/* Reads a FASTA text of any length; needs no store. The identifier stands behind the first `>`, and its length is the
 * first number; the letters go to the front of `out`, and how many is the second. 1,024 bytes are always room enough. In
 * the lines after the first a, c, g and t are read, and written, as A, C, G and T; additions and find take capitals only. */
uint64_t mirror_fasta(const uint8_t *text, size_t length, uint8_t *out, size_t out_length);
/* Two lengths of a text of up to 1,024 NC-IUB codes in either case, read plain; needs no store. A code stands for one or more of A,
 * C, G and T, and a base is chosen at each place by itself. The first number is the length of the longest stretch that is a mirror
 * repeat for some choice, the second that of the longest which is one for every choice; both are 0 for an empty text. More codes are
 * refused with 5, whatever they are, and a byte that is no code, U among them, with 4. */
uint64_t mirror_uncertain(const uint8_t *text, size_t length);

static inline unsigned mirror_refusal(uint64_t answer) { return (unsigned)(answer & 0xff); }
static inline unsigned mirror_flag(uint64_t answer) { return (unsigned)(answer >> 8 & 0xff); }
static inline unsigned mirror_row_of(uint64_t answer) { return (unsigned)(answer >> 16 & 0xffff); }
static inline unsigned mirror_first(uint64_t answer) { return (unsigned)(answer >> 32 & 0xffff); }
static inline unsigned mirror_second(uint64_t answer) { return (unsigned)(answer >> 48); }
/* The signed length in the answer of mirror_row: -1 for row 0. */
static inline int mirror_signed_first(uint64_t answer) { return (int16_t)(answer >> 32 & 0xffff); }
/* The two sums in the answer of mirror_occurrences, in place of the row and the two numbers: bytes 2 to 4, and 5 to 7. */
static inline uint32_t mirror_by_rows(uint64_t answer) { return (uint32_t)(answer >> 16 & 0xffffff); }
static inline uint32_t mirror_by_ends(uint64_t answer) { return (uint32_t)(answer >> 40); }
/* Where repeat i, from 0, begins and ends in what mirror_minimal_unique wrote: the place of its first letter, and the one past
 * its last. */
static inline unsigned mirror_start(const uint8_t *out, size_t i) { return out[4 * i] + 256u * out[4 * i + 1]; }
static inline unsigned mirror_end(const uint8_t *out, size_t i) { return out[4 * i + 2] + 256u * out[4 * i + 3]; }
/* Where piece i, from 0, ends in what mirror_pieces wrote. It begins where the piece before it ends, the first at 0. */
static inline unsigned mirror_piece_end(const uint8_t *out, size_t i) { return out[2 * i] + 256u * out[2 * i + 1]; }
/* The counts in what mirror_mark wrote, eight bytes each, low byte first. */
static inline uint64_t mirror_count_at(const uint8_t *marks, size_t i)
{
    uint64_t n = 0;
    for (size_t k = 8; k > 0; k--) n = n << 8 | marks[8 * i + k - 1];
    return n;
}
static inline uint64_t mirror_right(const uint8_t *marks) { return mirror_count_at(marks, 0); }
static inline uint64_t mirror_repeated(const uint8_t *marks) { return mirror_count_at(marks, 1); }
static inline uint64_t mirror_wrong(const uint8_t *marks) { return mirror_count_at(marks, 2); }
static inline uint64_t mirror_missing(const uint8_t *marks) { return mirror_count_at(marks, 3); }

#ifdef __cplusplus
}
#endif
#endif

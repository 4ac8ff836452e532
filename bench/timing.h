/* What the benchmark measures and prints. */
#ifndef BENCH_TIMING_H
#define BENCH_TIMING_H

#include <stdbool.h>
#include <stddef.h>
#include <stdint.h>
#include <stdio.h>

/* Microseconds of the library and of the twin for the same work, or a ratio in the one and in the other. */
struct pair {
    double library, twin;
};

/* The ratio that a tested call may reach at 1,000 letters, the one for reading FASTA, the one of a call on an inverted record
 * to the same call on a plain one with as many letters and rows, those of a turn, of frequency, of occurrences, of genbank and of
 * the minimal unique palindromes to length on the same letters, the last by reading, since the test of an inverted record with few
 * rows is the cheapest, the one of the longest length to length, each of which is the test and one read, the one of a removal or
 * the longest at an end to an addition there, since each reads the letters once, and the one of finding a long piece that breaks
 * at its first pair to testing its letters. How many ratios to the twin are above the aim is told, and no failure. */
#define RATIO_LIMIT 1.5
#define RATIO_AIM 1.1
#define FASTA_LIMIT 1.2
#define READING_LIMIT 1.2
#define TURN_LIMIT 3.0
#define FREQUENCY_LIMIT 2.0
#define OCCURRENCES_LIMIT 3.0
#define GENBANK_LIMIT 1.5
#define MINIMAL_UNIQUE_LIMIT 2.5
#define MINIMAL_UNIQUE_INVERTED_LIMIT 3.5
#define LONGEST_LENGTH_LIMIT 1.02
#define END_LIMIT 1.2
#define FIRST_PAIR_LIMIT 1.05

/* The ratio of the fewest pieces to length on the same letters, the one on the Fibonacci word, which has the most series, and that of
 * their time at 1,000 letters to their time at 125: n log n comes to 11.4, and n times n to 64. */
#define PIECES_LIMIT 3.5
#define PIECES_FIBONACCI_LIMIT 5.0
#define PIECES_GROWTH_LIMIT 12.0

/* The ratio of marking the sheet of 10,000 random stretches to reading its lines alone, and that of marking ten times as many to
 * marking these: what the test and the tables take is part of either, so in proportion it is below 10. */
#define MARK_READ_LIMIT 8.0
#define MARK_LINES_LIMIT 12.0

/* The steps from row to row that the way to the row of a stretch may have in any record: as many as the longest way between two rows
 * of 1,024 A, whose chain has each pair of depths, and one more where no row is as long as the stretch. */
#define MARK_STEPS_LIMIT 26

/* The microseconds that the two lengths of 1,024 codes may take on any text, since their work is not linear, on one drawn by chance,
 * and on such texts each of which is new. */
#define UNCERTAIN_LIMIT 200.0
#define UNCERTAIN_RANDOM_LIMIT 15.0
#define UNCERTAIN_NEW_LIMIT 30.0

/* One call on n letters of a word in a reading, 0 or 1; the smallest of many samples, library and twin one after the other. */
struct pair time_call(int call, int word, int reading, size_t n, int samples);

/* The time of the first question over that of the second on the same record, in the library and in the twin, for a limit that
 * is nearer than the smallest of many samples keeps still: on random DNA that strays by 2 in 100 with the same code on both
 * sides. So the two are timed in turn in many rounds, and the middle one of the rounds' ratios counts. */
struct pair time_ratio(const int questions[2], int word, int reading, size_t n);

/* The middle one of an odd number of ratios, which are put in order. */
double middle_of(double *ratios, size_t n);

/* Finding a piece of a million letters that breaks at its first pair, over finding the same piece with N as its last letter,
 * which is refused as soon as the letters are tested; and nanoseconds for each letter of a piece that reads alike, or of that
 * which is refused. In a record of a reading; in the library and in the twin. */
struct pair time_first_pair(int reading);
struct pair time_long(int reading, bool alike);

/* One pass that reads the bytes that a store of this capacity uses. */
double time_floor(size_t capacity, int samples);

/* Changes in a row at n letters by the library's tested call, the twin with no test, whose removals are told what a test reads,
 * and surface recording; microseconds for one change. */
struct ways {
    double tested, untested, surface;
};
void time_changes(int word, size_t n, int samples, struct ways *add, struct ways *take);

/* An untested fill of n letters, and reading a FASTA text of n letters, in capitals and in mixed case; the library's time
 * is -1 where it leaves other bytes than the twin. */
struct pair time_fill(int word, size_t n, int samples);
struct pair time_fasta(int word, size_t n, int samples);
struct pair time_masked_fasta(int word, size_t n, int samples);

/* The two lengths of a text of codes (codes.h); and of texts of a kind that is drawn by chance, each met once, of which the middle
 * one counts. A processor that has met a text some hundred times foresees where each search in it ends: on a text that is new to
 * it the same work takes two to three times as long. */
struct pair time_uncertain(int text, int samples);
struct pair time_new_texts(int kind);

/* Marking a sheet (sheets.h), or so many stretches drawn by chance, against a record of n letters of a word in its reading: the
 * library and the twin, a twin that looks at each byte once, such a reading of the lines alone, and one look at each byte; the
 * library's time is -1 where it answers or writes other than the twin. */
struct marking {
    struct pair whole;
    double at_once, lines, bytes;
};
struct marking time_marking(int sheet, int word, size_t n, int samples);
struct marking time_lines(size_t count, int word, size_t n, int samples);

/* The sizes at which the growth of a call's cost is measured. */
enum { POINTS = 8, POINT_STEP = 125 };

#endif

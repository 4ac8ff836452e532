/* The benchmark: the library beside its C twin, in one run, on five words and four sizes in either reading, inverted
 * records beside plain ones, turns, frequency, occurrences, genbank, the minimal unique palindromes and the longest length beside
 * length, removals and the longest at an end beside additions, finding a piece of a million letters beside testing them, the two
 * lengths of texts of uncertain bases, and the fewest pieces beside length on six words, with how their cost grows.
 *
 * Prints ratios, library over twin, since times of one machine say little; a ratio above the limit is marked with !.
 * The argument names the file that gets the drawing of growth. Ends with 1 if a tested call at 1,000 letters, a fill or
 * reading FASTA is above its limit, or if at 1,000 letters an inverted record beside a plain one, a turn, frequency,
 * occurrences, genbank, the minimal unique palindromes or the longest length beside length, or a removal or the longest at an end
 * beside an addition, takes longer than it may, or a piece of a million letters that breaks at its first pair longer than the
 * test of its letters, or the two lengths of 1,024 codes longer than they may, or if the fewest pieces take longer beside length or
 * grow more than they may. */
#include <math.h>

#include "calls.h"
#include "cells.h"
#include "codes.h"
#include "draw.h"
#include "timing.h"
#include "twin.h"
#include "words.h"

static const size_t sizes[] = {125, 250, 500, 1000};
static const char *const reading_names[] = {"plain", "inverted"};
enum { SIZES = 4, LARGEST = 1000, SAMPLES = 2000, ROUNDS = 10, TEST_ALONE = CALL_LENGTH };

/* The times of every call on every word in either reading, at the size that was measured last. */
static struct pair least[PAIRS][2][ALL_WORDS];

/* The heading of a table on the words that are made for a reading. */
static void heading(const char *title, enum reading made_for)
{
    printf("\n%-26s", title);
    for (int w = 0; w < WORDS; w++)
        printf("%13s", word_names[made_for * WORDS + w]);
    puts("");
}

static const char *mark(double ratio, double limit) { return ratio > limit ? "!" : " "; }

/* One line of work on five words: the time of the library, and its ratio to the twin's; how many ratios are above the limit.
 * A library that left other bytes than the twin has a time below 0, and counts as above. */
static int line(const char *name, double limit, const struct pair times[WORDS])
{
    int above = 0;
    printf("  %-24s", name);
    for (int w = 0; w < WORDS; w++) {
        double ratio = times[w].library / times[w].twin;
        above += ratio > limit || ratio < 0;
        printf("%6.1f %5.2f%s", times[w].library, ratio, mark(ratio, limit));
    }
    puts("");
    return above;
}

/* One line of ratios on five words, in the library and in the twin, to so many places; how many of the library's are above
 * the limit. */
static int ratios(const char *name, double limit, int places, const struct pair ratio[WORDS])
{
    int above = 0;
    printf("  %-24s", name);
    for (int w = 0; w < WORDS; w++) {
        above += ratio[w].library > limit;
        printf("%6.*f%s%5.*f ", places, ratio[w].library, mark(ratio[w].library, limit), places, ratio[w].twin);
    }
    puts("");
    return above;
}

/* One line that holds the times of some work on five words against those of other work. */
static int against(const char *name, double limit, const struct pair times[WORDS], const struct pair others[WORDS])
{
    struct pair ratio[WORDS];
    for (int w = 0; w < WORDS; w++)
        ratio[w] = (struct pair){times[w].library / others[w].library, times[w].twin / others[w].twin};
    return ratios(name, limit, 2, ratio);
}

/* Whether a call is timed on a word in a reading. The words that are made for the other reading are for turns, and for
 * length beside them: some have few rows or none, which cost least to test, while a turn brings in as many as letters. GTA..A is for
 * pieces, and for length beside them, and A..ACA..A for the sheets of marking.c. */
static bool timed(int call, int word, enum reading reading)
{
    if (word_reading(word) != (int)reading)
        return word < BOTH_WORDS && (is_turn(call) || call == CALL_LENGTH);
    if (word == GTA)
        return call == CALL_PIECES || call == CALL_LENGTH;
    if (word == ACA)
        return false;
    return !opens_otherwise(call, reading) && works_on(call, reading);
}

/* Times every call on every word in rounds, so that no pair has the machine's bad moment alone. */
static void measure_calls(size_t n)
{
    for (int round = 0; round < ROUNDS; round++)
        for (int c = 0; c < PAIRS; c++)
            for (int i = 0; i < 2 * ALL_WORDS; i++) {
                int word = i / 2, reading = i % 2;
                if (!timed(c, word, reading))
                    continue;
                struct pair t = time_call(c, word, reading, n, SAMPLES / ROUNDS), *to = &least[c][reading][word];
                to->library = round == 0 || t.library < to->library ? t.library : to->library;
                to->twin = round == 0 || t.twin < to->twin ? t.twin : to->twin;
            }
}

/* What a call may take beside length on the same letters of a record of a reading, 0 for one that is not held against it. */
static double length_limit(int call, enum reading reading)
{
    if (is_turn(call))
        return TURN_LIMIT;
    if (is_frequency(call))
        return FREQUENCY_LIMIT;
    if (call == CALL_OCCURRENCES)
        return OCCURRENCES_LIMIT;
    if (call == CALL_MINIMAL_UNIQUE)
        return reading == PLAIN ? MINIMAL_UNIQUE_LIMIT : MINIMAL_UNIQUE_INVERTED_LIMIT;
    return call == CALL_GENBANK ? GENBANK_LIMIT : 0;
}

/* The line below a call that is held against length on the same letters in the reading that the word is made for; how many
 * ratios are above the limit. Where the record is read the other way it has few rows or none, and the cheapest of tests; that
 * ratio is shown too and not counted. */
static int over_length(int call, enum reading reading, enum reading made_for)
{
    int first = made_for * WORDS;
    double limit = length_limit(call, reading);
    if (limit == 0)
        return 0;
    const struct pair *times = &least[call][reading][first];
    int above = against("  over length", limit, times, &least[CALL_LENGTH][made_for][first]);
    if (reading != made_for)
        against("  over length as it is", limit, times, &least[CALL_LENGTH][reading][first]);
    return above;
}

/* Every tested call on records of a reading, of the words made for it or for the other; how many ratios are above their
 * limits. */
static int tested_calls(size_t n, enum reading reading, enum reading made_for)
{
    char title[64];
    int above = 0, first = made_for * WORDS;
    snprintf(title, sizeof title, "%zu letters, %s", n, reading_names[reading]);
    heading(title, made_for);
    for (int c = 0; c < PAIRS; c++) {
        if (!timed(c, first, reading))
            continue;
        int slow = line(calls[c].name, RATIO_LIMIT, &least[c][reading][first]);
        above += c < CALLS ? slow : 0; /* beside a twin that loops it is marked and not counted */
        above += over_length(c, reading, made_for);
    }
    return above;
}

/* The tables of a size: the words in the reading that they are made for, then in the other. */
static int tested_records(size_t n)
{
    int above = 0;
    measure_calls(n);
    for (int other = 0; other < 2; other++)
        for (int reading = PLAIN; reading <= INVERTED; reading++)
            above += tested_calls(n, reading, other ? !reading : reading);
    return above;
}

/* How many of the ratios at the size that was measured last are above what is aimed at, and the largest of all. */
static void against_aim(void)
{
    int count = 0, above = 0, of = 0, on = 0;
    double most = 0;
    for (int c = 0; c < CALLS; c++)
        for (int i = 0; i < 2 * BOTH_WORDS; i++) {
            int word = i / 2, reading = i % 2;
            if (!timed(c, word, reading))
                continue;
            double ratio = least[c][reading][word].library / least[c][reading][word].twin;
            count++;
            above += ratio > RATIO_AIM;
            if (ratio > most)
                most = ratio, of = c, on = i;
        }
    printf("\nOf %d ratios of a tested call to its twin %d are above %.1f; the largest is %.2f (%s, %s %s)\n", count, above, RATIO_AIM,
           most, calls[of].name, reading_names[on % 2], word_names[on / 2]);
}

static unsigned rows_of(int word)
{
    static struct sitting s;
    seat(&s, word, word_reading(word), LARGEST, CAPACITY_MOST);
    return count_of(s.store);
}

/* The rows of each inverted record and of the plain one that it is timed beside; how many pairs differ by more than 2 in
 * 100, and so do not show what the reading costs. */
static int rows_alike(void)
{
    int apart = 0;
    printf("  %-24s", "rows, inverted and plain");
    for (int w = 0; w < WORDS; w++) {
        unsigned inverted = rows_of(WORDS + w), plain = rows_of(plain_match(w));
        bool differ = fabs((double)inverted - plain) > 0.02 * plain;
        apart += differ;
        printf("%6u %5u%s", inverted, plain, differ ? "!" : " ");
    }
    puts("");
    return apart;
}

/* Inverted records of 1,000 letters beside plain ones with as many rows, in the library and in the twin; how many ratios
 * of the library are above the limit. The records are those that measure_calls met last. Turns are left out: what they
 * cost hangs on the rows of the other reading, which are not alike; and so are pieces, which are of plain records. */
static int inverted_beside_plain(void)
{
    printf("\nInverted records beside plain ones of as many letters and rows: time of the one over that of the other, in the "
           "library and in the twin; ! where above %.1f\n", READING_LIMIT);
    printf("\n%-26s", "1000 letters, plain");
    for (int w = 0; w < WORDS; w++)
        printf("%13s", word_names[plain_match(w)]);
    heading("1000 letters, inverted", INVERTED);
    int above = rows_alike();
    for (int c = CALL_OPEN_INVERTED; c < CALLS; c++) {
        if (is_turn(c) || !works_on(c, INVERTED))
            continue;
        struct pair plain[WORDS];
        for (int w = 0; w < WORDS; w++)
            plain[w] = least[c == CALL_OPEN_INVERTED ? (int)CALL_OPEN : c][PLAIN][plain_match(w)];
        above += against(calls[c].name, READING_LIMIT, &least[c][INVERTED][WORDS], plain);
    }
    return above;
}

/* The longest length beside length on every word in its reading; how many ratios of the library are above the limit. */
static int longest_length_beside_length(void)
{
    static const int questions[2] = {CALL_LONGEST_LENGTH, CALL_LENGTH};
    int above = 0;
    printf("\nThe longest length beside length, each the test and one read: time of the one over that of the other, in the "
           "library and in the twin; ! where above %.2f\n", LONGEST_LENGTH_LIMIT);
    for (int reading = PLAIN; reading <= INVERTED; reading++) {
        struct pair ratio[WORDS];
        for (int w = 0; w < WORDS; w++)
            ratio[w] = time_ratio(questions, reading * WORDS + w, reading, LARGEST);
        heading(reading == PLAIN ? "1000 letters, plain" : "1000 letters, inverted", reading);
        above += ratios(calls[CALL_LONGEST_LENGTH].name, LONGEST_LENGTH_LIMIT, 3, ratio);
    }
    return above;
}

/* A removal and the longest at an end beside an addition there, on every word in its reading: each is the test and little more.
 * How many ratios of the library are above the limit. The times are those that measure_calls met last. */
static int ends_beside_addition(void)
{
    static const int beside[][2] = {{CALL_REMOVE_LEFT, CALL_ADD_LEFT}, {CALL_REMOVE_RIGHT, CALL_ADD_RIGHT},
                                    {CALL_LONGEST_LEFT, CALL_ADD_LEFT}, {CALL_LONGEST_RIGHT, CALL_ADD_RIGHT}};
    int above = 0;
    printf("\nA removal and the longest at an end beside an addition there, each one reading of the letters: time of the one over "
           "that of the other, in the library and in the twin; ! where above %.1f\n", END_LIMIT);
    for (int reading = PLAIN; reading <= INVERTED; reading++) {
        heading(reading == PLAIN ? "1000 letters, plain" : "1000 letters, inverted", reading);
        for (int i = 0; i < 4; i++)
            above += against(calls[beside[i][0]].name, END_LIMIT, &least[beside[i][0]][reading][reading * WORDS],
                             &least[beside[i][1]][reading][reading * WORDS]);
    }
    return above;
}

/* The test against one reading pass over the bytes that it must look at. */
static void against_floor(double test[SIZES][WORDS])
{
    double floor[SIZES] = {0};
    for (int round = 0; round < ROUNDS; round++)
        for (int i = 0; i < SIZES; i++) {
            double now = time_floor(sizes[i] + 24, SAMPLES / ROUNDS);
            floor[i] = round == 0 || now < floor[i] ? now : floor[i];
        }
    puts("\nThe test alone (length: the test and one read), in microseconds, and as a multiple of one reading pass");
    heading("letters, pass", PLAIN);
    for (int i = 0; i < SIZES; i++) {
        printf("  %4zu   %6.2f             ", sizes[i], floor[i]);
        for (int w = 0; w < WORDS; w++)
            printf("%6.1f %5.1f ", test[i][w], test[i][w] / floor[i]);
        puts("");
    }
}

static void row_of_ways(const char *name, const struct ways *ways)
{
    printf("  %-10s tested, library ", name);
    for (int w = 0; w < WORDS; w++)
        printf("%12.3f ", ways[w].tested);
    printf("\n  %-10s untested, twin  ", name);
    for (int w = 0; w < WORDS; w++)
        printf("%12.3f ", ways[w].untested);
    printf("\n  %-10s surfaces        ", name);
    for (int w = 0; w < WORDS; w++)
        printf("%12.3f ", ways[w].surface);
    puts("");
}

/* What the test and the lent store cost beside the best known method, which has neither. */
static void against_surfaces(void)
{
    struct ways add[WORDS], take[WORDS];
    puts("\nA change at the right end of 1,000 letters, in microseconds");
    heading("", PLAIN);
    for (int w = 0; w < WORDS; w++)
        time_changes(w, LARGEST, SAMPLES / 5, &add[w], &take[w]);
    row_of_ways("add", add);
    row_of_ways("remove", take);
}

/* One line of work on 1,000 letters that takes no store to test; how many ratios are above the limit. */
static int untested(const char *name, double limit, struct pair (*time)(int word, size_t n, int samples))
{
    struct pair times[WORDS];
    for (int w = 0; w < WORDS; w++)
        times[w] = time(w, LARGEST, SAMPLES);
    return line(name, limit, times);
}

/* Filling a record and reading a text; how many ratios are above their limits. */
static int without_a_test(void)
{
    puts("\nFilling a record with 1,000 letters with no test between, in nanoseconds for each letter");
    heading("", PLAIN);
    int above = untested("fill", RATIO_LIMIT, time_fill);
    printf("\nReading a FASTA text of 1,000 letters in lines of 60, in microseconds; ! where above %.1f\n", FASTA_LIMIT);
    heading("", PLAIN);
    above += untested("fasta, capitals", FASTA_LIMIT, time_fasta);
    return above + untested("fasta, mixed case", FASTA_LIMIT, time_masked_fasta);
}

/* One line for a piece of a million letters in either reading; how many figures of the library are above the limit. */
static int long_line(const char *name, double limit, const struct pair figures[2])
{
    int above = 0;
    printf("  %-36s", name);
    for (int reading = PLAIN; reading <= INVERTED; reading++) {
        above += figures[reading].library > limit;
        printf("%10.3f%s%6.3f ", figures[reading].library, mark(figures[reading].library, limit), figures[reading].twin);
    }
    puts("");
    return above;
}

/* Finding a piece of a million letters; how many ratios are above the limit. */
static int long_pieces(void)
{
    struct pair ratio[2], letters[2], alike[2];
    for (int reading = PLAIN; reading <= INVERTED; reading++) {
        ratio[reading] = time_first_pair(reading);
        letters[reading] = time_long(reading, false);
        alike[reading] = time_long(reading, true);
    }
    printf("\nFinding a piece of a million letters that breaks at its first pair, over the test of its letters, and nanoseconds for "
           "each letter, in the library and in the twin; ! where above %.2f\n", FIRST_PAIR_LIMIT);
    printf("\n%-38s%16s%18s\n", "", "all-A, plain", "(AT)*, inverted");
    int above = long_line("breaks at 1, over the letters' test", FIRST_PAIR_LIMIT, ratio);
    long_line("the letters' test, nanoseconds", INFINITY, letters);
    long_line("reads alike, nanoseconds", INFINITY, alike);
    return above;
}

/* The times of a text of codes and their ratio; how many of the library's time and the ratio are above their limits. */
static int code_figures(struct pair times, double limit)
{
    double ratio = times.library / times.twin;
    printf("%10.1f%s%10.1f%8.2f%s\n", times.library, mark(times.library, limit), times.twin, ratio, mark(ratio, RATIO_LIMIT));
    return (times.library > limit) + (ratio > RATIO_LIMIT);
}

/* The two lengths of texts of codes; how many figures are above their limits. */
static int uncertain_texts(void)
{
    uint8_t text[CODES_MOST];
    int above = 0;
    printf("\nThe two lengths of 1,024 codes: pairs of places compared, microseconds of the library and of the twin, and their ratio; ! "
           "where above %.0f, on texts by chance %.0f, or %.0f if each is new, and %.1f\n", UNCERTAIN_LIMIT, UNCERTAIN_RANDOM_LIMIT,
           UNCERTAIN_NEW_LIMIT, RATIO_LIMIT);
    printf("\n%-26s%10s%10s%11s%8s\n", "1024 codes", "pairs", "library", "twin", "ratio");
    for (int t = 0; t < CODE_TEXTS; t++) {
        make_codes(t, text);
        printf("  %-24s%10zu", code_text_names[t], twin_uncertain_pairs(text, CODES_MOST));
        above += code_figures(time_uncertain(t, SAMPLES), is_random_text(t) ? UNCERTAIN_RANDOM_LIMIT : UNCERTAIN_LIMIT);
    }
    for (int t = 0; is_random_text(t); t++) {
        printf("  %-24s%10s", code_text_names[t], "each new");
        above += code_figures(time_new_texts(t), UNCERTAIN_NEW_LIMIT);
    }
    return above;
}

/* Measures a call on a word at every size of the drawing, in rounds, so that no size has the machine's bad moment. */
static void measure_growth(int call, int word, double *us)
{
    for (int round = 0; round < ROUNDS; round++)
        for (int i = 0; i < POINTS; i++) {
            double now = time_call(call, word, PLAIN, (size_t)(i + 1) * POINT_STEP, SAMPLES / ROUNDS).library;
            us[i] = round == 0 || now < us[i] ? now : us[i];
        }
}

/* One line: how the cost of a call grows on each word. */
static void growth_line(int call, double us[WORDS][MOST_POINTS])
{
    printf("  %-24s", calls[call].name);
    for (int w = 0; w < WORDS; w++) {
        measure_growth(call, w, us[w]);
        printf("%12.1f ", us[w][POINTS - 1] / us[w][0]);
    }
    puts("");
}

/* What the fewest pieces may take beside length on a word. */
static double pieces_limit(int word) { return word == FIBONACCI ? PIECES_FIBONACCI_LIMIT : PIECES_LIMIT; }

/* The fewest pieces of a word: their times, those over the twin's and over length's, and how they grow; how many of the last two are
 * above their limits. The ratio to the twin is counted among those of the tested calls, but for GTA..A. */
static int pieces_line(int word, double us[MOST_POINTS])
{
    struct pair times = least[CALL_PIECES][PLAIN][word], length = least[CALL_LENGTH][PLAIN][word];
    double ratio = times.library / times.twin, over = times.library / length.library, limit = pieces_limit(word);
    measure_growth(CALL_PIECES, word, us);
    double grown = us[POINTS - 1] / us[0];
    printf("  %-24s%8.1f%8.1f%8.2f%s%9.2f%s%8.2f%10.1f%s\n", word_names[word], times.library, times.twin, ratio,
           mark(ratio, RATIO_LIMIT), over, mark(over, limit), times.twin / length.twin, grown, mark(grown, PIECES_GROWTH_LIMIT));
    return (over > limit) + (grown > PIECES_GROWTH_LIMIT) + (word == GTA && ratio > RATIO_LIMIT);
}

/* The fewest pieces on six words; how many figures are above their limits. The times are those that measure_calls met last. */
static int fewest_pieces(struct panel *to)
{
    int above = 0;
    printf("\nThe fewest pieces: microseconds of the library and of the twin and their ratio, these over length's on the same letters, in "
           "the library and in the twin, and the library's over those at 125 letters; ! where above %.1f, %.1f, on the Fibonacci word "
           "%.1f, and %.1f\n", RATIO_LIMIT, PIECES_LIMIT, PIECES_FIBONACCI_LIMIT, PIECES_GROWTH_LIMIT);
    printf("\n%-26s%8s%8s%8s%18s%11s\n", "1000 letters, plain", "library", "twin", "ratio", "over length", "growth");
    for (int w = 0; w < CUT_WORDS; w++)
        above += pieces_line(cut_word(w), to->at[w]);
    return above;
}

/* Prints how the cost of the addition, of the test, of the counts by place, of marking the own list and of the fewest pieces grows,
 * and draws that of the first two and of the last against n; how many figures of the pieces are above their limits. */
static int growth(FILE *out)
{
    static struct panel panels[3] = {{.title = "add right, tested (microseconds)", .words = WORDS, .points = POINTS},
                                     {.title = "the test alone (microseconds)", .words = WORDS, .points = POINTS},
                                     {.title = "the fewest pieces (microseconds)", .words = CUT_WORDS, .points = POINTS}};
    static const int drawn[2] = {CALL_ADD_RIGHT, TEST_ALONE};
    static double not_drawn[WORDS][MOST_POINTS];
    puts("\nCost at 1,000 letters over cost at 125: 8 times the letters, 6.9 times the bytes of the store");
    heading("", PLAIN);
    for (int p = 0; p < 2; p++)
        growth_line(drawn[p], panels[p].at);
    for (int call = CALL_FREQUENCY; call <= CALL_OCCURRENCES; call++)
        growth_line(call, not_drawn);
    growth_line(CALL_MARK, not_drawn);
    int above = fewest_pieces(&panels[2]);
    draw(out, panels, 3);
    return above;
}

/* The list against n. To find out its length takes a reading of the letters for each 344 repeats, so that the cost for a letter
 * rises at some sizes, but no further than three readings come to. */
static void list_growth(void)
{
    double us[WORDS][POINTS];
    for (int w = 0; w < WORDS; w++)
        measure_growth(CALL_LIST, w, us[w]);
    puts("\nThe list, in nanoseconds for each letter");
    heading("letters", PLAIN);
    for (int i = 0; i < POINTS; i++) {
        int letters = (i + 1) * POINT_STEP;
        printf("  %4d                    ", letters);
        for (int w = 0; w < WORDS; w++)
            printf("%12.1f ", us[w][i] * 1e3 / letters);
        puts("");
    }
}

int main(int count, char **arguments)
{
    FILE *out = count == 2 ? fopen(arguments[1], "w") : NULL;
    if (!out) {
        fprintf(stderr, "usage: bench DRAWING.svg\n");
        return 2;
    }
    printf("Tested calls: microseconds of the library, and their ratio to the twin's; ! where above %.1f\n"
           "Below a turn, frequency, occurrences, genbank and minimal_unique their time over that of length on the same letters, "
           "in the library and in the twin; ! where above %.1f, %.1f, %.1f, %.1f and %.1f, the last %.1f in an inverted record\n",
           RATIO_LIMIT, TURN_LIMIT, FREQUENCY_LIMIT, OCCURRENCES_LIMIT, GENBANK_LIMIT, MINIMAL_UNIQUE_LIMIT,
           MINIMAL_UNIQUE_INVERTED_LIMIT);
    double test[SIZES][WORDS];
    int above = 0;
    for (int i = 0; i < SIZES; i++) {
        above = tested_records(sizes[i]);
        for (int w = 0; w < WORDS; w++)
            test[i][w] = least[TEST_ALONE][PLAIN][w].library;
    }
    against_aim();
    above += inverted_beside_plain();
    above += longest_length_beside_length();
    above += ends_beside_addition();
    against_floor(test);
    against_surfaces();
    above += without_a_test();
    above += long_pieces();
    above += uncertain_texts();
    above += growth(out);
    list_growth();
    fclose(out);
    printf("\n%d figures above their limit at 1,000 letters, or 1,024 codes\n", above);
    return above != 0;
}

/* Marking sheets, measured: the sheets of sheets.h against records of 1,000 letters, the library beside its C twin in one run, the
 * sheet of 10,000 random stretches beside reading it alone, how cost grows with the lines, and the steps to the row of a stretch,
 * counted.
 *
 * Prints times and ratios, library over twin; one above its limit is marked with !. Ends with 1 if there is one. */
#include <stdbool.h>
#include <stdio.h>

#include "cells.h"
#include "sheets.h"
#include "timing.h"
#include "words.h"

enum { LETTERS = 1000, SAMPLES = 2000, ROUNDS = 10, GROWTHS = 3 };

/* The words of plain records, the one that is hard for marks, and the words of inverted records. */
enum { MARKED_WORDS = 2 * WORDS + 1 };
static int marked_word(int i) { return i < WORDS ? i : i == WORDS ? (int)ACA : i - 1; }

static const char *sign(double figure, double limit) { return figure > limit || figure < 0 ? "!" : " "; }

static bool beyond(double figure, double limit) { return *sign(figure, limit) == '!'; }

static void name_of(int word) { printf("  %-12s%-10s", word_names[word], word_reading(word) ? "inverted" : ""); }

/* The smaller of two times of the same work; one below 0, which says that the twin differs, stays. */
static double least_of(double one, double other) { return one < other ? one : other; }

static void keep_least(struct marking *to, struct marking now)
{
    to->whole.library = least_of(to->whole.library, now.whole.library);
    to->whole.twin = least_of(to->whole.twin, now.whole.twin);
    to->at_once = least_of(to->at_once, now.at_once);
    to->lines = least_of(to->lines, now.lines);
    to->bytes = least_of(to->bytes, now.bytes);
}

/* Long sheets get fewer samples, since each of these is long itself. */
static int samples_for(int sheet) { return sheet == SHEET_RANDOM ? SAMPLES / ROUNDS / 8 : SAMPLES / ROUNDS; }

static struct marking times[MARKED_WORDS][SHEETS];

/* In rounds over all words and sheets, so that none has the machine's bad moment alone. */
static void measure_sheets(void)
{
    for (int round = 0; round < ROUNDS; round++)
        for (int i = 0; i < MARKED_WORDS; i++)
            for (int sheet = 0; sheet < SHEETS; sheet++) {
                struct marking now = time_marking(sheet, marked_word(i), LETTERS, samples_for(sheet));
                if (round == 0)
                    times[i][sheet] = now;
                keep_least(&times[i][sheet], now);
            }
}

/* The sheets of a word, and its random stretches beside reading them; how many figures are above their limits. */
static int sheets_line(int i)
{
    int above = 0;
    name_of(marked_word(i));
    for (int sheet = 0; sheet < SHEETS; sheet++) {
        struct pair whole = times[i][sheet].whole;
        double ratio = whole.library / whole.twin;
        above += beyond(ratio, RATIO_LIMIT);
        printf("%8.1f %4.2f%s%5.2f", whole.library, ratio, sign(ratio, RATIO_LIMIT), whole.library / times[i][sheet].at_once);
    }
    const struct marking *random = &times[i][SHEET_RANDOM];
    double over = random->whole.library / random->lines;
    printf("%8.1f%6.2f%s%7.1f%6.2f\n", random->lines, over, sign(over, MARK_READ_LIMIT), random->bytes,
           random->whole.library / random->bytes);
    return above + beyond(over, MARK_READ_LIMIT);
}

static int all_sheets(void)
{
    int above = 0;
    measure_sheets();
    printf("\nMarking a sheet: microseconds of the library, and their ratio to the twin's, ! where above %.1f, and to those of a twin "
           "that looks at each byte once; for the random stretches microseconds of such a reading alone and marking over these, ! "
           "where above %.1f, and the same of one look at each byte\n", RATIO_LIMIT, MARK_READ_LIMIT);
    printf("\n%-24s", "1000 letters");
    for (int sheet = 0; sheet < SHEETS; sheet++)
        printf("%19s", sheet_names[sheet]);
    printf("%15s%13s\n", "lines read", "bytes");
    for (int i = 0; i < MARKED_WORDS; i++)
        above += sheets_line(i);
    return above;
}

/* How marking grows with the lines, in the library; how many words are above the limit. */
static int growth(void)
{
    static const size_t lines[GROWTHS] = {RANDOM_LINES / 10, RANDOM_LINES, LINES_MOST};
    static const int samples[GROWTHS] = {SAMPLES, SAMPLES / 5, SAMPLES / 50};
    int above = 0;
    printf("\nRandom stretches: microseconds of the library for so many lines, and the last over those before; ! where above "
           "%.1f\n\n", MARK_LINES_LIMIT);
    printf("%-24s%10zu%10zu%10zu%10s\n", "1000 letters", lines[0], lines[1], lines[2], "ratio");
    for (int i = 0; i < MARKED_WORDS; i++) {
        double us[GROWTHS];
        for (int k = 0; k < GROWTHS; k++)
            us[k] = time_lines(lines[k], marked_word(i), LETTERS, samples[k]).whole.library;
        double ratio = us[GROWTHS - 1] / us[GROWTHS - 2];
        name_of(marked_word(i));
        printf("%10.1f%10.1f%10.1f%10.2f%s\n", us[0], us[1], us[2], ratio, sign(ratio, MARK_LINES_LIMIT));
        above += beyond(ratio, MARK_LINES_LIMIT);
    }
    return above;
}

/* The steps on a record of a word; whether those of the way that the calls go are more than may be. */
static int steps_line(int word, size_t n)
{
    static struct sitting s;
    struct steps steps = {0};
    seat(&s, word, word_reading(word), n, n);
    name_of(word);
    printf("%6zu", n);
    for (int way = 0; way < STEP_WAYS; way++) {
        steps = count_steps(s.store, way);
        printf("%8u%9.3f", steps.most, (double)steps.all / ((double)n * (double)(n + 1) / 2));
    }
    puts(sign(steps.most, MARK_STEPS_LIMIT));
    return beyond(steps.most, MARK_STEPS_LIMIT);
}

/* The steps on every word, and on the most A that a record has, whose chain has each pair of depths. Nothing is timed here. */
static int all_steps(void)
{
    int above = 0;
    printf("\nSteps from row to row to that of a stretch, the most and on average over all stretches; ! where the last most is above "
           "%d\n\n", MARK_STEPS_LIMIT);
    printf("%-30s%17s%17s%17s\n", "letters", "by links", "by jumps", "from the image");
    for (int i = 0; i < MARKED_WORDS; i++)
        above += steps_line(marked_word(i), LETTERS);
    return above + steps_line(ALL_A, CAPACITY_MOST);
}

int main(void)
{
    int above = all_sheets() + growth() + all_steps();
    printf("\n%d figures of marking above their limit\n", above);
    return above != 0;
}

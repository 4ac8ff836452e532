/* The picture of the fewest pieces, 02 (xiv): of each word the rows that the factorization of its first n letters visits, one for
 * each series of the palindromes that end at each right end. Prints them and draws them against n beside the line 13 n; ends with 1
 * if a number lies above it, or is not what trying every suffix counts. Nothing is timed here, so the drawing is the same on every
 * machine. */
#include <stdbool.h>
#include <stdlib.h>

#include "../include/mirror.h"
#include "../tests/brute.h"
#include "draw.h"

/* The crate bench_series: the rows that are visited for the record of a store, 0 where it is damaged or inverted. */
uint64_t bench_series(const uint8_t *store, size_t length);

enum { MOST_SERIES = 13, EACH_TRIED = 60 };
static const size_t sizes[] = {125, 250, 500, 1000};
enum { SIZES = sizeof sizes / sizeof *sizes };

static uint8_t store[MIRROR_STORE_SIZE(DRAWN)], letters[DRAWN];
static uint64_t visited[CUT_WORDS][DRAWN + 1];

/* Whether every suffix is tried at n letters: that takes long, so at few letters and at the sizes of the table. */
static bool tried(size_t n)
{
    bool in_table = false;
    for (int i = 0; i < SIZES; i++)
        in_table |= n == sizes[i];
    return in_table || n <= EACH_TRIED;
}

/* The rows visited for each beginning of a word. */
static void visit(int word)
{
    make_word(cut_word(word), letters, DRAWN);
    mirror_open(store, sizeof store, DRAWN);
    for (size_t n = 1; n <= DRAWN; n++) {
        uint64_t added = mirror_add_right(store, sizeof store, letters[n - 1]);
        uint64_t rows = visited[word][n] = bench_series(store, sizeof store);
        if (mirror_refusal(added) == 0 && rows >= n && rows <= MOST_SERIES * n
            && (!tried(n) || rows == brute_series(brute_rule(PLAIN), letters, n)))
            continue;
        printf("bench/series: %s, %zu letters: %llu\n", word_names[cut_word(word)], n, (unsigned long long)rows);
        exit(1);
    }
}

static void print_visited(void)
{
    printf("Rows that a factorization visits\n  letters     %d n", MOST_SERIES);
    for (int w = 0; w < CUT_WORDS; w++)
        printf("%12s", word_names[cut_word(w)]);
    for (int i = 0; i < SIZES; i++) {
        printf("\n  %7zu %8zu", sizes[i], MOST_SERIES * sizes[i]);
        for (int w = 0; w < CUT_WORDS; w++)
            printf("%12llu", (unsigned long long)visited[w][sizes[i]]);
    }
    puts("");
}

int main(int count, char **arguments)
{
    static struct panel panel = {.title = "rows visited for the fewest pieces", .words = CUT_WORDS, .points = MOST_POINTS,
                                 .bound = {"13 n", MOST_SERIES, 0}};
    FILE *out = count == 2 ? fopen(arguments[1], "w") : NULL;
    if (!out) {
        fprintf(stderr, "usage: series DRAWING.svg\n");
        return 2;
    }
    for (int w = 0; w < CUT_WORDS; w++) {
        visit(w);
        for (int i = 0; i < MOST_POINTS; i++)
            panel.at[w][i] = (double)visited[w][(i + 1) * DRAWN / MOST_POINTS];
    }
    print_visited();
    draw(out, &panel, 1);
    return fclose(out) != 0;
}

/* The picture of the lecture on linear time, 02 (xiii): each word is added at the right of an empty plain record, letter by letter,
 * and what the additions report is summed up. Prints the sums and draws them against n beside the line 2n - 1; ends with 1
 * if a sum lies above it. Nothing is timed here, so the drawing is the same on every machine. */
#include <stdlib.h>

#include "../include/mirror.h"
#include "draw.h"

static uint8_t store[MIRROR_STORE_SIZE(DRAWN)], letters[DRAWN];
static unsigned long sums[WORDS][DRAWN + 1];

/* What the additions of a word report, summed up after each. */
static void sum_up(int word)
{
    make_word(word, letters, DRAWN);
    mirror_open(store, sizeof store, DRAWN);
    for (size_t n = 0; n < DRAWN; n++) {
        uint64_t answer = mirror_add_right(store, sizeof store, letters[n]);
        sums[word][n + 1] = sums[word][n] + mirror_first(answer);
        if (mirror_refusal(answer) == 0 && sums[word][n + 1] <= 2 * n + 1)
            continue;
        printf("bench/searching: %s, %zu letters: %lu\n", word_names[word], n + 1, sums[word][n + 1]);
        exit(1);
    }
}

static void print_sums(void)
{
    static const int sizes[] = {125, 250, 500, 1000};
    printf("What the additions of a word report, summed up\n  letters   2n - 1");
    for (int w = 0; w < WORDS; w++)
        printf("%12s", word_names[w]);
    for (int i = 0; i < 4; i++) {
        printf("\n  %7d %8d", sizes[i], 2 * sizes[i] - 1);
        for (int w = 0; w < WORDS; w++)
            printf("%12lu", sums[w][sizes[i]]);
    }
    puts("");
}

int main(int count, char **arguments)
{
    static struct panel panel = {.title = "passed in the searches of all additions", .words = WORDS, .points = MOST_POINTS,
                                 .bound = {"2n - 1", 2, 1}};
    FILE *out = count == 2 ? fopen(arguments[1], "w") : NULL;
    if (!out) {
        fprintf(stderr, "usage: searching DRAWING.svg\n");
        return 2;
    }
    for (int w = 0; w < WORDS; w++) {
        sum_up(w);
        for (int i = 0; i < MOST_POINTS; i++)
            panel.at[w][i] = (double)sums[w][(i + 1) * DRAWN / MOST_POINTS];
    }
    print_sums();
    draw(out, &panel, 1);
    return fclose(out) != 0;
}

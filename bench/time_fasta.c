/* The clock on reading a FASTA text, in lines of 60 letters, in capitals and in mixed case. */
#include <string.h>

#include "clock.h"
#include "../include/mirror.h"
#include "timing.h"
#include "twin.h"
#include "words.h"

enum { LETTERS = FASTA_MOST };

static uint8_t text[2 * LETTERS + 6], out[LETTERS], other[LETTERS];
static volatile uint64_t sink;

typedef uint64_t reader(const uint8_t *text, size_t length, uint8_t *out, size_t out_length);

static int64_t sample(reader *run, uint8_t *into, size_t length)
{
    int64_t from = now_ns();
    sink = run(text, length, into, LETTERS);
    return now_ns() - from;
}

/* The text at hand, which has n letters. */
static struct pair time_text(size_t length, size_t n, int samples)
{
    int64_t cost = clock_cost(), library = INT64_MAX, twin = INT64_MAX;
    for (int i = 0; i < samples; i++) {
        library = smaller(library, sample(mirror_fasta, out, length));
        twin = smaller(twin, sample(twin_fasta, other, length));
    }
    bool same = mirror_fasta(text, length, out, LETTERS) == twin_fasta(text, length, other, LETTERS);
    if (!same || memcmp(out, other, n) != 0)
        return (struct pair){-1, 1};
    return (struct pair){(double)(library - cost) / 1e3, (double)(twin - cost) / 1e3};
}

struct pair time_fasta(int word, size_t n, int samples)
{
    return time_text(make_fasta(word, text, n), n, samples);
}

struct pair time_masked_fasta(int word, size_t n, int samples)
{
    size_t length = make_fasta(word, text, n);
    mask_fasta(text, length);
    return time_text(length, n, samples);
}

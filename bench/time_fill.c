/* The clock on filling a record with no test at each letter. The library's fill is exported for this
 * alone. */
#include "calls.h"
#include "clock.h"
#include "timing.h"
#include "twin.h"
#include "words.h"

/* Of the crate bench_fill. */
uint64_t bench_fill(uint8_t *store, size_t length, const uint8_t *letters, size_t n);

static uint8_t store[STORE_MOST], other[STORE_MOST];
static volatile uint64_t sink;

typedef uint64_t fill(uint8_t *store, size_t length, const uint8_t *letters, size_t n);

static int64_t sample(fill *run, uint8_t *into, const uint8_t *letters, size_t n)
{
    int64_t from = now_ns();
    sink = run(into, STORE_MOST, letters, n);
    return now_ns() - from;
}

struct pair time_fill(int word, size_t n, int samples)
{
    uint8_t letters[CAPACITY_MOST];
    int64_t cost = clock_cost(), library = INT64_MAX, twin = INT64_MAX;
    make_word(word, letters, n);
    for (int i = 0; i < samples; i++) {
        library = smaller(library, sample(bench_fill, store, letters, n));
        twin = smaller(twin, sample(twin_fill, other, letters, n));
    }
    if (memcmp(store, other, sizeof store) != 0)
        return (struct pair){-1, 1};
    return (struct pair){(double)(library - cost) / 1e3, (double)(twin - cost) / 1e3};
}

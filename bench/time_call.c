/* The clock on a single call, and on two in turn. A call that changes the store gets it back before the next sample, outside
 * the time. */
#include <stdlib.h>
#include <string.h>

#include "calls.h"
#include "clock.h"
#include "timing.h"

enum { RATIO_ROUNDS = 41, RATIO_SAMPLES = 200 };

static struct sitting before, s;
static volatile uint64_t sink;

static int64_t sample(const struct call *call, uint64_t (*run)(struct sitting *), size_t used)
{
    if (call->changes)
        memcpy(s.store, before.store, used);
    int64_t from = now_ns();
    sink = run(&s);
    return now_ns() - from;
}

struct pair time_call(int index, int word, int reading, size_t n, int samples)
{
    const struct call *call = &calls[index];
    size_t capacity = n + 24, used = 25 * capacity + 48;
    int64_t cost = clock_cost(), library = INT64_MAX, twin = INT64_MAX;
    seat(&before, word, reading, n, capacity);
    s = before;
    for (int i = 0; i < samples; i++) {
        library = smaller(library, sample(call, call->library, used));
        twin = smaller(twin, sample(call, call->twin, used));
    }
    return (struct pair){(double)(library - cost) / 1e3, (double)(twin - cost) / 1e3};
}

/* The smallest time of the first question over that of the second, by the library or by the twin. */
static double round_ratio(const int questions[2], bool twin)
{
    int64_t cost = clock_cost(), least[2] = {INT64_MAX, INT64_MAX};
    for (int i = 0; i < RATIO_SAMPLES; i++)
        for (int turn = 0; turn < 2; turn++) {
            int which = (i + turn) % 2; /* each is the first in every other sample */
            const struct call *call = &calls[questions[which]];
            least[which] = smaller(least[which], sample(call, twin ? call->twin : call->library, 0));
        }
    return (double)(least[0] - cost) / (double)(least[1] - cost);
}

static int by_size(const void *a, const void *b)
{
    double x = *(const double *)a, y = *(const double *)b;
    return x < y ? -1 : x > y;
}

double middle_of(double *ratios, size_t n)
{
    qsort(ratios, n, sizeof *ratios, by_size);
    return ratios[n / 2];
}

/* The middle one of the ratios of all rounds. */
static double middle_ratio(const int questions[2], bool twin)
{
    double ratios[RATIO_ROUNDS];
    for (int i = 0; i < RATIO_ROUNDS; i++)
        ratios[i] = round_ratio(questions, twin);
    return middle_of(ratios, RATIO_ROUNDS);
}

struct pair time_ratio(const int questions[2], int word, int reading, size_t n)
{
    seat(&s, word, reading, n, n + 24);
    return (struct pair){middle_ratio(questions, false), middle_ratio(questions, true)};
}

double time_floor(size_t capacity, int samples)
{
    size_t words = (25 * capacity + 48) / sizeof(uint64_t);
    int64_t cost = clock_cost(), least = INT64_MAX;
    for (int i = 0; i < samples; i++) {
        uint64_t sum = 0, word;
        int64_t from = now_ns();
        for (size_t k = 0; k < words; k++) {
            memcpy(&word, s.store + k * sizeof word, sizeof word);
            sum += word;
        }
        sink = sum;
        least = smaller(least, now_ns() - from);
    }
    return (double)(least - cost) / 1e3;
}

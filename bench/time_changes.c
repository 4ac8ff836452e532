/* The clock on runs of changes at the right end, since one untested change is too short for it. What was added is
 * removed again, which gives back every byte, so that each sample starts from the same record. */
#include <stdlib.h>
#include <string.h>

#include "../include/mirror.h"
#include "calls.h"
#include "clock.h"
#include "surface.h"
#include "timing.h"
#include "twin.h"
#include "words.h"

enum { RUN = 24 };

struct lap {
    int64_t add, take;
};

static uint8_t store[STORE_MOST];
static struct reach known[RUN]; /* of the right end, after each letter of a run */
static struct surfaces surfaces;
static volatile uint64_t sink;

static struct lap tested(const uint8_t *more)
{
    int64_t from = now_ns();
    for (int i = 0; i < RUN; i++)
        sink = mirror_add_right(store, sizeof store, more[i]);
    int64_t between = now_ns();
    for (int i = 0; i < RUN; i++)
        sink = mirror_remove_right(store, sizeof store);
    return (struct lap){between - from, now_ns() - between};
}

/* A removal is told what is known of its end, which a test would have read. Right after an addition the addition says it: the
 * end is as before, and the longest there stood already unless it came in. */
static void learn(const uint8_t *more)
{
    for (int i = 0; i < RUN; i++) {
        known[i].shorter = end_row(store, RIGHT);
        known[i].again = mirror_flag(bare_add(store, RIGHT, more[i])) == 0;
    }
    for (int i = RUN; i-- > 0;)
        bare_remove(store, RIGHT, known[i]);
}

static struct lap twin(const uint8_t *more)
{
    int64_t from = now_ns();
    for (int i = 0; i < RUN; i++)
        sink = bare_add(store, RIGHT, more[i]);
    int64_t between = now_ns();
    for (int i = RUN; i-- > 0;)
        sink = bare_remove(store, RIGHT, known[i]);
    return (struct lap){between - from, now_ns() - between};
}

static struct lap surface(const uint8_t *more)
{
    int64_t from = now_ns();
    for (int i = 0; i < RUN; i++)
        sink = surfaces_add(&surfaces, RIGHT, more[i]);
    int64_t between = now_ns();
    for (int i = 0; i < RUN; i++)
        sink = surfaces_remove(&surfaces, RIGHT);
    return (struct lap){between - from, now_ns() - between};
}

static struct lap least(struct lap a, struct lap b)
{
    return (struct lap){smaller(a.add, b.add), smaller(a.take, b.take)};
}

/* Microseconds for one change of a run. */
static double each(int64_t ns, int64_t cost) { return (double)(ns - cost) / 1e3 / RUN; }

void time_changes(int word, size_t n, int samples, struct ways *add, struct ways *take)
{
    uint8_t letters[CAPACITY_MOST];
    int64_t cost = clock_cost();
    struct lap a = {INT64_MAX, INT64_MAX}, b = a, c = a;
    make_word(word, letters, n + RUN);
    twin_fill(store, sizeof store, letters, n);
    learn(letters + n);
    surfaces_open(&surfaces);
    for (size_t i = 0; i < n; i++)
        surfaces_add(&surfaces, RIGHT, letters[i]);
    for (int i = 0; i < samples; i++) {
        a = least(a, tested(letters + n));
        b = least(b, twin(letters + n));
        c = least(c, surface(letters + n));
    }
    *add = (struct ways){each(a.add, cost), each(b.add, cost), each(c.add, cost)};
    *take = (struct ways){each(a.take, cost), each(b.take, cost), each(c.take, cost)};
}

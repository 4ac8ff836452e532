/* The clock on texts of codes of the largest length. */
#include "clock.h"
#include "codes.h"
#include "../include/mirror.h"
#include "timing.h"
#include "twin.h"

enum { NEW_TEXTS = 2001 };

static uint8_t text[CODES_MOST];
static volatile uint64_t sink;

typedef uint64_t teller(const uint8_t *text, size_t length);

static int64_t sample(teller *run)
{
    int64_t from = now_ns();
    sink = run(text, sizeof text);
    return now_ns() - from;
}

struct pair time_uncertain(int which, int samples)
{
    int64_t cost = clock_cost(), library = INT64_MAX, twin = INT64_MAX;
    make_codes(which, text);
    for (int i = 0; i < samples; i++) {
        library = smaller(library, sample(mirror_uncertain));
        twin = smaller(twin, sample(twin_uncertain));
    }
    return (struct pair){(double)(library - cost) / 1e3, (double)(twin - cost) / 1e3};
}

struct pair time_new_texts(int which)
{
    static double us[2][NEW_TEXTS];
    int64_t cost = clock_cost();
    uint32_t seed = 1;
    for (int i = 0; i < NEW_TEXTS; i++) {
        draw_text(which, &seed, text);
        for (int turn = 0; turn < 2; turn++) {
            int twin = (i + turn) % 2; /* each is the first in every other text */
            us[twin][i] = (double)(sample(twin ? twin_uncertain : mirror_uncertain) - cost) / 1e3;
        }
    }
    return (struct pair){middle_of(us[0], NEW_TEXTS), middle_of(us[1], NEW_TEXTS)};
}

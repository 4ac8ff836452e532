/* The clock on marking a sheet, and on reading it alone. */
#include <string.h>

#include "calls.h"
#include "clock.h"
#include "sheets.h"
#include "timing.h"
#include "twin.h"
#include "words.h"

static struct sitting s;
static uint8_t sheet[SHEET_MOST];
static size_t sheet_length;
static volatile uint64_t sink;

typedef uint64_t work(void);

static uint64_t by_library(void) { return measured->mark(s.store, s.length, NAME, sheet, sheet_length, s.out, s.out_length); }

static uint64_t by_twin(void) { return twin_mark(s.store, s.length, NAME, sheet, sheet_length, s.out, s.out_length); }

static uint64_t at_once(void) { return twin_mark_at_once(s.store, s.length, NAME, sheet, sheet_length, s.out, s.out_length); }

static uint64_t read_lines(void) { return bare_read(NAME, sheet, sheet_length); }

/* Each byte is looked at by itself, as a reader must who does not know where the next LF stands. */
static uint64_t read_bytes(void)
{
    uint64_t found = 0;
    for (size_t i = 0; i < sheet_length; i++) {
        if (sheet[i] == '\n')
            found++;
        __asm__ volatile("" : "+r"(found)); /* or the compiler would take many at once */
    }
    return found;
}

static int64_t sample(work *run)
{
    int64_t from = now_ns();
    sink = run();
    return now_ns() - from;
}

/* Whether the library and the twin answer alike and write the same. */
static bool alike(void)
{
    uint8_t written[MIRROR_MARKS_SIZE];
    uint64_t told = by_library();
    memcpy(written, s.out, sizeof written);
    return told == by_twin() && memcmp(written, s.out, sizeof written) == 0;
}

/* The sheet at hand, each kind of work in turn. */
static struct marking time_sheet(int samples)
{
    enum { WORKS = 5 };
    static work *const works[WORKS] = {by_library, by_twin, at_once, read_lines, read_bytes};
    int64_t cost = clock_cost(), least[WORKS];
    double us[WORKS];
    for (int i = 0; i < samples; i++)
        for (int w = 0; w < WORKS; w++) {
            int64_t took = sample(works[w]);
            least[w] = i == 0 ? took : smaller(least[w], took);
        }
    for (int w = 0; w < WORKS; w++)
        us[w] = (double)(least[w] - cost) / 1e3;
    return (struct marking){{alike() ? us[0] : -1, us[1]}, us[2], us[3], us[4]};
}

struct marking time_marking(int which, int word, size_t n, int samples)
{
    seat(&s, word, word_reading(word), n, n + 24);
    sheet_length = make_sheet(which, s.store, sheet);
    return time_sheet(samples);
}

struct marking time_lines(size_t count, int word, size_t n, int samples)
{
    seat(&s, word, word_reading(word), n, n + 24);
    sheet_length = draw_sheet(s.store, count, sheet);
    return time_sheet(samples);
}

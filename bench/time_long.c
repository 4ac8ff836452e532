/* The clock on finding a piece of a million letters. The record is the smallest there is, so that the test of the store is
 * nothing beside that of the letters. */
#include "calls.h"
#include "clock.h"
#include "timing.h"
#include "twin.h"
#include "words.h"

enum { LETTERS = 1000000, ROUNDS = 21, SAMPLES = 8 };

typedef uint64_t finder(const uint8_t *store, size_t length, const uint8_t *piece, size_t piece_length);

static uint8_t piece[LETTERS];
static struct sitting s;
static volatile uint64_t sink;

/* A piece that reads alike in the reading. */
static void make_long(int reading)
{
    seat(&s, ALL_A, reading, 1, 1);
    make_word(reading * WORDS + ALL_A, piece, LETTERS);
}

/* The piece with such a last letter. Nothing else is written between two samples, so that each finds the piece in the caches as
 * the other left it. */
static int64_t sample(finder *find, uint8_t last)
{
    piece[LETTERS - 1] = last;
    int64_t from = now_ns();
    sink = find(s.store, s.length, piece, LETTERS);
    return now_ns() - from;
}

/* The smallest time of a piece that breaks at its first pair over that of one that is refused for its last letter. */
static double round_ratio(finder *find)
{
    static const uint8_t last[2] = {'G', 'N'};
    int64_t least[2] = {INT64_MAX, INT64_MAX};
    for (int i = 0; i < SAMPLES; i++)
        for (int turn = 0; turn < 2; turn++) {
            int which = (i + turn) % 2; /* each is the first in every other sample */
            least[which] = smaller(least[which], sample(find, last[which]));
        }
    return (double)least[0] / (double)least[1];
}

static double middle_ratio(finder *find)
{
    double ratios[ROUNDS];
    for (int i = 0; i < ROUNDS; i++)
        ratios[i] = round_ratio(find);
    return middle_of(ratios, ROUNDS);
}

struct pair time_first_pair(int reading)
{
    make_long(reading);
    return (struct pair){middle_ratio(measured->find), middle_ratio(twin_find)};
}

struct pair time_long(int reading, bool alike)
{
    make_long(reading);
    uint8_t last = alike ? piece[LETTERS - 1] : 'N';
    int64_t library = INT64_MAX, twin = INT64_MAX;
    for (int i = 0; i < ROUNDS; i++) {
        library = smaller(library, sample(measured->find, last));
        twin = smaller(twin, sample(twin_find, last));
    }
    return (struct pair){(double)library / LETTERS, (double)twin / LETTERS};
}

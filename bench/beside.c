/* Today's library beside that of another revision, in one run: every call on five words of 1,000 letters, the two in turn,
 * on records that each made with its own calls, plain ones and, where both can open such, inverted ones; the two lengths of
 * five texts of codes; and the fill with no test between additions. What only one of them has is left out and told. The
 * smallest of many samples counts. Where a library happens to lie in memory seems to move a short call by several per cent,
 * so several copies of each are loaded, a round on each pair. Prints ratios, today over the other, for each call and word and
 * for each call over the five words of a reading (the geometric mean), and last the largest of these, the fill's aside: that
 * one figure says whether a call got slower.
 *
 *     beside FOLDER [LIMIT [FILL]]     FOLDER/today-1.so, FOLDER/other-1.so, today-2.so and so on, COPIES of each, and the
 *                                      same of the crate bench_fill, today-fill-1.so and so on; ends with 1 if that figure
 *                                      is above the limit, or the fill's above FILL, or if a call was refused or a
 *                                      piece wrongly found or not found */
#include <dlfcn.h>
#include <float.h>
#include <math.h>
#include <stdio.h>
#include <stdlib.h>
#include <string.h>

#include "calls.h"
#include "clock.h"
#include "codes.h"
#include "words.h"

enum { LETTERS = 1000, CAPACITY = LETTERS + 24, COPIES = 8, ROUNDS = 8 * COPIES, SAMPLES = 60 };
enum { FASTA = CALLS, MASKED, UNCERTAIN, FILL, ALL };

typedef uint64_t fill(uint8_t *store, size_t length, const uint8_t *letters, size_t n);

static library copies[COPIES][2], *sides = copies[0];
static fill *fill_copies[COPIES][2], **fills = fill_copies[0];
static unsigned char has[2][LIBRARY_CALLS];
static struct sitting records[2][BOTH_WORDS], s;
static uint8_t fasta_texts[2][2 * LETTERS + 6], fasta_text[2 * LETTERS + 6];
static size_t fasta_length;
static const int code_texts[WORDS] = {CODES_RANDOM, CODES_BASES, CODES_A_N_C, CODES_C_N_C, CODES_CLIMBED};
static uint8_t fill_letters[LETTERS], code_text[CODES_MOST];
static int64_t least[ALL][BOTH_WORDS][2];
static bool astray[ALL]; /* refused, or a piece found that is absent, or the other way round */
static volatile uint64_t sink;

/* The row that a library has for a piece of its record. */
static unsigned row_by(const library *by, const struct sitting *s, const struct piece *piece)
{
    return mirror_row_of(by->find(s->store, s->length, piece->letters, piece->length));
}

/* A record of the word made by a library's own calls, with arguments that make each call work hard: the row and the first piece
 * are those of the longest palindrome, the other row is that of the most frequent one, and the sheet is the record's own list. */
static void make_record(struct sitting *to, const library *by, int word)
{
    uint8_t letters[LETTERS + 1];
    make_word(word, letters, LETTERS + 1);
    to->length = MIRROR_STORE_SIZE(CAPACITY);
    to->scratch_length = sizeof to->scratch; /* enough for the other library too */
    to->out_length = sizeof to->out;
    to->capacity = CAPACITY;
    to->letter = letters[LETTERS];
    to->place = LETTERS / 2;
    (word_reading(word) ? by->open_inverted : by->open)(to->store, to->length, CAPACITY);
    for (size_t i = 0; i < LETTERS; i++)
        by->add_right(to->store, to->length, letters[i]);
    uint64_t longest = by->longest(to->store, to->length);
    struct piece *piece = &to->pieces[0], often;
    piece->length = mirror_first(longest);
    memcpy(piece->letters, letters + mirror_second(longest), piece->length);
    to->row = row_by(by, to, piece);
    make_often(&often, word_reading(word), letters, LETTERS);
    to->often = row_by(by, to, &often);
    make_pieces(to, word_reading(word), LETTERS);
    uint64_t list = by->list(to->store, to->length, NAME, to->scratch, to->scratch_length, to->sheet, sizeof to->sheet);
    to->sheet_length = mirror_first(list);
}

static bool reads_fasta(int call) { return call == FASTA || call == MASKED; }

/* Opening and reading FASTA are short, and can be done again at once. */
static int times_of(int call) { return call <= CALL_OPEN_INVERTED || reads_fasta(call) ? 10 : 1; }

/* What a call answers; a fill answers the number of letters, and 0 where it did nothing. */
static uint64_t run(int call, int side)
{
    if (call == FILL)
        return fills[side](s.store, s.length, fill_letters, LETTERS) == LETTERS ? 0 : 1;
    if (call == UNCERTAIN)
        return measured->uncertain(code_text, sizeof code_text);
    return reads_fasta(call) ? measured->fasta(fasta_text, fasta_length, s.out, s.out_length) : calls[call].library(&s);
}

/* One call of one library. Both work in the same bytes, which hold that library's record or text before each sample. Of what
 * find answers, whether the piece is there is looked at alone: an earlier library does not say where it breaks. */
static int64_t sample(int call, int word, int side)
{
    measured = &sides[side];
    if (reads_fasta(call))
        memcpy(fasta_text, fasta_texts[side], fasta_length);
    else
        memcpy(s.store, records[side][word].store, s.length);
    int64_t from = now_ns();
    for (int i = times_of(call); i > 0; i--)
        sink = run(call, side);
    int64_t took = now_ns() - from;
    astray[call] |= mirror_refusal(sink) != 0 || (is_find(call) && mirror_flag(sink) != (call == CALL_FIND));
    return took;
}

/* The texts of the two libraries, which are the same; but another revision that refuses small letters, as the first version did,
 * is timed on capitals. */
static void make_texts(int call, int word)
{
    for (int side = 0; side < 2; side++) {
        fasta_length = make_fasta(word, fasta_texts[side], LETTERS);
        if (call == MASKED)
            mask_fasta(fasta_texts[side], fasta_length);
    }
    if ((sides[1].fasta(fasta_texts[1], fasta_length, s.out, s.out_length) & 0xff) != 0)
        make_fasta(word, fasta_texts[1], LETTERS);
}

static void measure(int call, int word)
{
    s = records[0][word];
    if (reads_fasta(call))
        make_texts(call, word);
    if (call == FILL)
        make_word(word, fill_letters, LETTERS);
    if (call == UNCERTAIN)
        make_codes(code_texts[word], code_text);
    for (int i = 0; i < SAMPLES; i++)
        for (int turn = 0; turn < 2; turn++) {
            int side = (i + turn) % 2;
            s.row = records[side][word].row;
            s.often = records[side][word].often;
            int64_t took = sample(call, word, side), *to = &least[call][word][side];
            *to = *to == 0 ? took : smaller(*to, took);
        }
}

/* calls[] has the calls that take a store */
static const char *name_of(int call)
{
    static const char *const others[] = {"fasta", "fasta, mixed case", "uncertain", "fill"};
    return call < CALLS ? calls[call].name : others[call - CALLS];
}

/* The library's call that is timed: its name stands before the comma, if there is one. */
static unsigned call_behind(const char *name)
{
    char before[32];
    snprintf(before, sizeof before, "%.*s", (int)strcspn(name, ","), name);
    return library_call(before);
}

static bool in_both(int call)
{
    if (call == FILL)
        return fills[0] && fills[1];
    unsigned which = call_behind(name_of(call));
    return has[0][which] && has[1][which];
}

/* How many readings both libraries have: the first version opened plain records alone. */
static int readings(void) { return in_both(CALL_OPEN_INVERTED) ? 2 : 1; }

/* Whether a call is timed on the words of a reading: its own opening, pieces where it cuts, and what takes no record, once. */
static bool timed(int call, int reading)
{
    return in_both(call) && !opens_otherwise(call, reading) && works_on(call, reading) && !(call >= CALLS && reading);
}

/* One line for a call: microseconds and ratio on each word of a reading, and the ratio over all five. */
static double print_call(int call, int reading, int64_t cost)
{
    double product = 1;
    printf("  %-24s", name_of(call));
    for (int word = reading * WORDS; word < (reading + 1) * WORDS; word++) {
        double today = (double)(least[call][word][0] - cost), ratio = today / (double)(least[call][word][1] - cost);
        printf("%6.1f %5.2f ", today / times_of(call) / 1e3, ratio);
        product *= ratio;
    }
    double over_all = pow(product, 1.0 / WORDS);
    printf("%9.3f%s\n", over_all, astray[call] ? "  refused, or found wrongly!" : "");
    return astray[call] ? INFINITY : over_all;
}

static void heading(const char *title, const char *const names[WORDS])
{
    printf("\n%-26s", title);
    for (int word = 0; word < WORDS; word++)
        printf("%13s", names[word]);
    printf("%10s\n", "all");
}

/* The fill, which is no call of the library: its ratio over all words, 0 where only one of the two has it. */
static double print_fill(void)
{
    heading("no test between letters", word_names);
    if (in_both(FILL))
        return print_call(FILL, 0, clock_cost());
    printf("  %-24s  not in both\n", name_of(FILL));
    return 0;
}

/* The two lengths, which take no word of letters: their ratio over all texts, 0 where only one of the two has them. */
static double print_uncertain(int64_t cost)
{
    const char *names[WORDS];
    if (!in_both(UNCERTAIN))
        return 0;
    for (int text = 0; text < WORDS; text++)
        names[text] = code_text_names[code_texts[text]];
    heading("texts of 1024 codes", names);
    return print_call(UNCERTAIN, 0, cost);
}

/* Every call; the largest ratio over all words of a reading, which is told with its call. */
static double print_calls(void)
{
    int64_t cost = clock_cost();
    int of = UNCERTAIN, read = 0;
    double largest = print_uncertain(cost);
    for (int reading = 0; reading < readings(); reading++) {
        heading(reading ? "inverted records" : "plain records", word_names + reading * WORDS);
        for (int call = 0; call < UNCERTAIN; call++) {
            double ratio = timed(call, reading) ? print_call(call, reading, cost) : 0;
            if (ratio > largest)
                largest = ratio, of = call, read = reading;
        }
    }
    for (int call = 0; call < FILL; call++)
        if (!in_both(call))
            printf("  %-24s  not in both\n", name_of(call));
    printf("\nThe largest ratio of a call over all words is %.3f (%s%s)\n", largest, name_of(of), read ? ", inverted" : "");
    return largest;
}

/* The fill of a copy of bench_fill, NULL where there is none. */
static fill *load_fill(const char *path)
{
    void *handle = dlopen(path, RTLD_NOW | RTLD_LOCAL);
    return handle ? (fill *)dlsym(handle, "bench_fill") : NULL;
}

/* Loads the copies, and makes the records. */
static void load(const char *folder)
{
    char path[4096];
    for (int i = 0; i < 2 * COPIES; i++) {
        const char *side = i % 2 ? "other" : "today";
        snprintf(path, sizeof path, "%s/%s-%d.so", folder, side, i / 2 + 1);
        library_load(&copies[i / 2][i % 2], path, has[i % 2]);
        snprintf(path, sizeof path, "%s/%s-fill-%d.so", folder, side, i / 2 + 1);
        fill_copies[i / 2][i % 2] = load_fill(path);
    }
    for (int i = 0; i < 2 * WORDS * readings(); i++)
        make_record(&records[i % 2][i / 2], &sides[i % 2], i / 2);
}

/* The limit that an argument gives; none is never reached. */
static double limit(int count, char **arguments, int at) { return at < count ? strtod(arguments[at], NULL) : DBL_MAX; }

int main(int count, char **arguments)
{
    if (count < 2 || count > 4) {
        fprintf(stderr, "usage: beside FOLDER [LIMIT [FILL]]\n");
        return 2;
    }
    load(arguments[1]);
    for (int round = 0; round < ROUNDS; round++) {
        sides = copies[round % COPIES];
        fills = fill_copies[round % COPIES];
        for (int call = 0; call < ALL; call++)
            for (int word = 0; word < WORDS * readings(); word++)
                if (timed(call, word_reading(word)))
                    measure(call, word);
    }
    puts("Calls at 1,000 letters: microseconds of today's library, and their ratio to those of the other revision");
    double filled = print_fill(), largest = print_calls();
    return largest > limit(count, arguments, 2) || filled > limit(count, arguments, 3);
}

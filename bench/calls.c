/* The table of calls, and the sittings that they are run on. */
#include "calls.h"

#include <string.h>

#include "twin.h"
#include "words.h"

const library linked_library = LIBRARY_OF_THIS_PROGRAM;
const library *measured = &linked_library;

#define BOTH_AS(id, name, args)                                                      \
    static uint64_t library_##id(struct sitting *s) { return measured->name args; } \
    static uint64_t twins_##id(struct sitting *s) { return twin_##name args; }
#define BOTH(name, args) BOTH_AS(name, name, args)

BOTH(open, (s->store, s->length, s->capacity))
BOTH(open_inverted, (s->store, s->length, s->capacity))
BOTH(add_left, (s->store, s->length, s->letter))
BOTH(add_right, (s->store, s->length, s->letter))
BOTH(remove_left, (s->store, s->length))
BOTH(remove_right, (s->store, s->length))
BOTH(turn_plain, (s->store, s->length))
BOTH(turn_inverted, (s->store, s->length))
BOTH(length, (s->store, s->length))
BOTH(count, (s->store, s->length))
BOTH(letter, (s->store, s->length, s->place))
BOTH(longest, (s->store, s->length))
BOTH(longest_length, (s->store, s->length))
BOTH(longest_left, (s->store, s->length))
BOTH(longest_right, (s->store, s->length))
BOTH(row, (s->store, s->length, s->row))
BOTH(frequency, (s->store, s->length, s->row))
BOTH_AS(frequency_often, frequency, (s->store, s->length, s->often))
BOTH(occurrences, (s->store, s->length))
BOTH(spell, (s->store, s->length, s->row, s->out, s->out_length))
BOTH(list, (s->store, s->length, NAME, s->scratch, s->scratch_length, s->out, s->out_length))
BOTH(genbank, (s->store, s->length, s->out, s->out_length))
BOTH(minimal_unique, (s->store, s->length, s->out, s->out_length))
BOTH(pieces, (s->store, s->length, s->out, s->out_length))
BOTH(mark, (s->store, s->length, NAME, s->sheet, s->sheet_length, s->out, s->out_length))

#define FIND(id, call) \
    BOTH_AS(id, find, (s->store, s->length, s->pieces[call - CALL_FIND].letters, s->pieces[call - CALL_FIND].length))
FIND(find, CALL_FIND)
FIND(find_outside, CALL_FIND_OUTSIDE)
FIND(find_inside, CALL_FIND_INSIDE)
FIND(find_alike, CALL_FIND_ALIKE)
FIND(find_longer, CALL_FIND_LONGER)

static uint64_t spell_by_loop(struct sitting *s)
{
    return twin_spell_by_loop(s->store, s->length, s->row, s->out, s->out_length);
}

#define CALL(name, changes) {#name, changes, library_##name, twins_##name}
#define ASKED_AS(id, name) {name, false, library_##id, twins_##id}

const struct call calls[PAIRS] = {
    [CALL_OPEN] = CALL(open, true),
    [CALL_OPEN_INVERTED] = CALL(open_inverted, true),
    [CALL_ADD_LEFT] = CALL(add_left, true),
    [CALL_ADD_RIGHT] = CALL(add_right, true),
    [CALL_REMOVE_LEFT] = CALL(remove_left, true),
    [CALL_REMOVE_RIGHT] = CALL(remove_right, true),
    [CALL_TURN_PLAIN] = CALL(turn_plain, true),
    [CALL_TURN_INVERTED] = CALL(turn_inverted, true),
    [CALL_LENGTH] = CALL(length, false),
    [CALL_COUNT] = CALL(count, false),
    [CALL_LETTER] = CALL(letter, false),
    [CALL_LONGEST] = CALL(longest, false),
    [CALL_LONGEST_LENGTH] = CALL(longest_length, false),
    [CALL_LONGEST_LEFT] = CALL(longest_left, false),
    [CALL_LONGEST_RIGHT] = CALL(longest_right, false),
    [CALL_ROW] = CALL(row, false),
    [CALL_FREQUENCY] = CALL(frequency, false),
    [CALL_FREQUENCY_OFTEN] = ASKED_AS(frequency_often, "frequency, often"),
    [CALL_OCCURRENCES] = CALL(occurrences, false),
    [CALL_SPELL] = CALL(spell, false),
    [CALL_FIND] = CALL(find, false),
    [CALL_FIND_OUTSIDE] = ASKED_AS(find_outside, "find, breaks at 1"),
    [CALL_FIND_INSIDE] = ASKED_AS(find_inside, "find, breaks inside"),
    [CALL_FIND_ALIKE] = ASKED_AS(find_alike, "find, absent alike"),
    [CALL_FIND_LONGER] = ASKED_AS(find_longer, "find, longer"),
    [CALL_LIST] = CALL(list, false),
    [CALL_GENBANK] = CALL(genbank, false),
    [CALL_MINIMAL_UNIQUE] = CALL(minimal_unique, false),
    [CALL_PIECES] = CALL(pieces, false),
    [CALL_MARK] = CALL(mark, false),
    [CALL_SPELL_BY_LOOP] = {"spell, twin loops", false, library_spell, spell_by_loop},
};

/* The row of the longest palindrome, by its length in the table. */
static unsigned longest_row(const uint8_t *b)
{
    unsigned best = EMPTY;
    for (unsigned r = 2; r < capacity_of(b) + 2; r++)
        if (get(b, r, LENGTH) > get(b, best, LENGTH))
            best = r;
    return best;
}

/* At how many places a piece stands among n letters. */
static size_t places_of(const struct piece *piece, const uint8_t *letters, size_t n)
{
    size_t places = 0;
    for (size_t i = 0; i + piece->length <= n; i++)
        places += memcmp(letters + i, piece->letters, piece->length) == 0;
    return places;
}

size_t make_often(struct piece *to, int reading, const uint8_t *letters, size_t n)
{
    size_t most = 0;
    to->length = 0;
    for (const char *letter = "ACGT"; *letter; letter++) {
        uint8_t last = (uint8_t)*letter;
        struct piece shortest = {.letters = {partner_tables[reading][last], last}, .length = reading == PLAIN ? 1 : 2};
        size_t places = places_of(&shortest, letters, n);
        if (places > most) {
            most = places;
            *to = shortest;
        }
    }
    return most;
}

void make_alike(struct piece *to, int reading, size_t n)
{
    to->length = n;
    make_word(RANDOM, to->letters, n);
    if (n > 0)
        to->letters[(n - 1) / 2] = 'G';
    for (size_t i = 0; i < n / 2; i++)
        to->letters[n - 1 - i] = partner_tables[reading][to->letters[i]];
}

void break_pair(struct piece *piece, size_t pair)
{
    uint8_t *letter = &piece->letters[piece->length - pair];
    *letter = *letter == 'A' ? 'C' : 'A';
}

void make_pieces(struct sitting *s, int reading, size_t n)
{
    for (int find = CALL_FIND_OUTSIDE; find < CALL_FIND + FINDS; find++) {
        struct piece *p = &s->pieces[find - CALL_FIND];
        make_alike(p, reading, n - n % 2 + (find == CALL_FIND_LONGER ? 2 : 0));
        if (broken_pair(find, n) != 0)
            break_pair(p, broken_pair(find, n));
    }
}

unsigned broken_pair(int find, size_t n)
{
    return find == CALL_FIND_OUTSIDE ? n >= 2 : find == CALL_FIND_INSIDE ? (unsigned)(n / 2) : 0;
}

/* The row of the most frequent palindrome, 0 where there is none. */
static unsigned often_row(const struct sitting *s, int reading)
{
    struct piece often;
    make_often(&often, reading, letters_of(s->store), size_of(s->store));
    return twin_find(s->store, s->length, often.letters, often.length) >> 16 & 0xffff;
}

void hand_in_list(struct sitting *s)
{
    uint8_t scratch[MIRROR_LIST_SCRATCH(CAPACITY_MOST)];
    s->sheet_length = bare_list(s->store, NAME, scratch, s->sheet);
}

void seat(struct sitting *s, int word, int reading, size_t n, size_t capacity)
{
    uint8_t letters[CAPACITY_MOST + 1];
    make_word(word, letters, n + 1);
    memset(s, 0, sizeof *s);
    memset(s->scratch, SCRATCH_PAINT, sizeof s->scratch);
    s->length = 48 * capacity + 256;
    s->scratch_length = sizeof s->scratch;
    s->out_length = sizeof s->out;
    bare_open(s->store, capacity, reading);
    for (size_t i = 0; i < n; i++)
        bare_add(s->store, RIGHT, letters[i]);
    s->capacity = capacity;
    s->letter = letters[n];
    s->place = n / 2;
    s->row = longest_row(s->store);
    uint64_t spelt = twin_spell(s->store, s->length, s->row, s->pieces[0].letters, PIECE_MOST);
    s->pieces[0].length = spelt >> 32 & 0xffff;
    s->often = often_row(s, reading);
    hand_in_list(s);
    make_pieces(s, reading, n);
}

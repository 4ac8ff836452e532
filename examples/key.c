/* The key of a sitting: reads calls, one a line, in the words of docs/SITTINGS.md, makes them, and prints what each
 * answers and the letters after it as that page does. `rows` prints the table of rows; a line that begins with # is a
 * title and is copied; empty lines are passed over.
 *
 *     key [FILE]        standard input where no file is named
 *
 * `mark e1 SHEET` marks a candidate's sheet under the identifier e1. The sheet is the name of the file that holds it, or stands
 * between quotes: each byte for itself, but \t for a tab, \n for LF, \r for CR, \\ for a backslash and \xNN for the byte with
 * this number in base sixteen, so that \x22 is a quote. The identifier may stand between quotes too. One mark sheet is kept from
 * the first line to the last, zeros at first, and `marks` prints what it holds. It is lent as 32 bytes, or as many as a number
 * behind the sheet says.
 *
 * Every line is looked at before the first call is made, so that a slip in the file never leaves half a key: it is told
 * with its line's number, and the status is 1. The first call must be an opening. */
#include "mirror.h"
#include <ctype.h>
#include <errno.h>
#include <inttypes.h>
#include <stdarg.h>
#include <stdio.h>
#include <stdlib.h>
#include <string.h>

enum { MOST = 1024, WORDS = 5 }; /* a word more than any call has, so that one too many is seen */

static uint8_t store[MIRROR_STORE_SIZE(MOST)];
static uint8_t text[MIRROR_LIST_SIZE(MOST)]; /* what the last spelling, listing or printing wrote */
static unsigned written;
static uint8_t marks[2 * MIRROR_MARKS_SIZE];

/* Bytes in memory of their own. */
struct bytes {
    uint8_t *at;
    size_t length;
};

/* One line of the file. */
struct line {
    const struct form *form; /* the call; NULL for a title */
    char *words[WORDS];      /* its words, "" where there are fewer; a title whole */
    uint64_t number;
    int left;
    struct bytes name, sheet; /* of a marking; no bytes elsewhere */
};

/* What a call takes, how it is made, and its accepted answer in words. */
struct form {
    const char *name;
    enum { NOTHING, NUMBER, MAYBE_NUMBER, END, MAYBE_END, LETTER_AND_END, READING, MAYBE_TEXT, SHEET } takes;
    const char *usage;
    uint64_t (*make)(const struct line *);
    void (*say)(const struct line *, uint64_t answer);
};

/* ---- the calls, and their answers in words */

static uint64_t spell(uint64_t row)
{
    uint64_t answer = mirror_spell(store, sizeof store, row, text, sizeof text);
    written = mirror_first(answer);
    return answer;
}

static void say_text(void)
{
    printf("%.*s", (int)written, (const char *)text);
}

static uint64_t longest_at(int left)
{
    return left ? mirror_longest_left(store, sizeof store) : mirror_longest_right(store, sizeof store);
}

static uint64_t make_open(const struct line *l) { return mirror_open(store, sizeof store, l->number); }
static uint64_t make_open_inverted(const struct line *l) { return mirror_open_inverted(store, sizeof store, l->number); }

static uint64_t make_turn(const struct line *l)
{
    return (strcmp(l->words[1], "plain") == 0 ? mirror_turn_plain : mirror_turn_inverted)(store, sizeof store);
}

static void say_done(const struct line *l, uint64_t answer)
{
    (void)l, (void)answer;
    printf("done");
}

static uint64_t make_add(const struct line *l)
{
    return (l->left ? mirror_add_left : mirror_add_right)(store, sizeof store, (unsigned char)l->words[1][0]);
}

static void say_add(const struct line *l, uint64_t answer)
{
    (void)l;
    spell(mirror_row_of(answer));
    say_text();
    printf(mirror_flag(answer) ? " is new, row %u" : "none new", mirror_row_of(answer));
    if (mirror_first(answer)) printf("; %u passed", mirror_first(answer));
}

/* What goes is the longest repeat at the end, which can be spelt only before it has gone. */
static uint64_t make_remove(const struct line *l)
{
    spell(mirror_row_of(longest_at(l->left)));
    return (l->left ? mirror_remove_left : mirror_remove_right)(store, sizeof store);
}

static void say_remove(const struct line *l, uint64_t answer)
{
    (void)l;
    printf("%c; ", mirror_first(answer));
    if (mirror_flag(answer)) say_text();
    printf(mirror_flag(answer) ? " goes, row %u" : "none goes", mirror_row_of(answer));
}

static uint64_t make_length(const struct line *l) { return (void)l, mirror_length(store, sizeof store); }
static uint64_t make_count(const struct line *l) { return (void)l, mirror_count(store, sizeof store); }
static uint64_t make_longest_length(const struct line *l) { return (void)l, mirror_longest_length(store, sizeof store); }

static void say_number(const struct line *l, uint64_t answer)
{
    (void)l;
    printf("%u", mirror_first(answer));
}

static uint64_t make_longest(const struct line *l)
{
    return *l->words[1] ? longest_at(l->left) : mirror_longest(store, sizeof store);
}

static void say_longest(const struct line *l, uint64_t answer)
{
    if (*l->words[1]) printf("row %u, %s", mirror_row_of(answer), mirror_flag(answer) ? "once only" : "not once only");
    else printf("length %u at %u", mirror_first(answer), mirror_second(answer));
}

static uint64_t make_letter(const struct line *l) { return mirror_letter(store, sizeof store, l->number); }

static void say_letter(const struct line *l, uint64_t answer)
{
    (void)l;
    printf("%c", mirror_first(answer));
}

static uint64_t make_row(const struct line *l) { return mirror_row(store, sizeof store, l->number); }

static void say_row(const struct line *l, uint64_t answer)
{
    (void)l;
    printf("length %d, link %u, inner %u", mirror_signed_first(answer), mirror_row_of(answer), mirror_second(answer));
}

static uint64_t make_frequency(const struct line *l) { return mirror_frequency(store, sizeof store, l->number); }
static uint64_t make_occurrences(const struct line *l) { return (void)l, mirror_occurrences(store, sizeof store); }

static void say_occurrences(const struct line *l, uint64_t answer)
{
    (void)l;
    printf("%u by rows, %u by ends", mirror_by_rows(answer), mirror_by_ends(answer));
}

static uint64_t make_spell(const struct line *l) { return spell(l->number); }

static void say_spell(const struct line *l, uint64_t answer)
{
    (void)l, (void)answer;
    if (written == 0) printf("nothing");
    say_text();
}

static uint64_t make_find(const struct line *l)
{
    return mirror_find(store, sizeof store, (const uint8_t *)l->words[1], strlen(l->words[1]));
}

/* The pair at which an absent piece breaks, counted from the outside; the largest number stands for every later pair too. */
static void say_find(const struct line *l, uint64_t answer)
{
    unsigned pair = mirror_first(answer);
    (void)l;
    printf(mirror_flag(answer) ? "row %u" : "absent", mirror_row_of(answer));
    if (pair) printf(", pair %u%s", pair, pair < 65535 ? " breaks" : " or later breaks");
}

/* The list is lent just the scratch that the letters now in the record need. */
static uint64_t make_list(const struct line *l)
{
    static uint8_t scratch[MIRROR_LIST_SCRATCH(MOST)];
    const uint8_t *name = (const uint8_t *)l->words[1];
    size_t need = MIRROR_LIST_SCRATCH(mirror_first(mirror_length(store, sizeof store)));
    uint64_t answer = mirror_list(store, sizeof store, name, strlen(l->words[1]), scratch, need, text, sizeof text);
    written = mirror_first(answer);
    return answer;
}

/* The lines of the list as start-end, with a blank between two. */
static void say_list(const struct line *l, uint64_t answer)
{
    (void)l, (void)answer;
    int fields = 0;
    if (written == 0) printf("nothing");
    for (unsigned i = 0; i + 1 < written; i++) {
        if (text[i] == '\n') fields = 0, putchar(' ');
        else if (text[i] == '\t' && fields++ == 1) putchar('-');
        else if (fields > 0 && text[i] != '\t') putchar(text[i]);
    }
}

/* What is written is lent just the bytes that it takes or, so that a refusal can be shown, as many as this word of the line says. */
static size_t room(const struct line *l, size_t word, size_t bytes, size_t most)
{
    if (!*l->words[word]) return bytes;
    return l->number < most ? (size_t)l->number : most;
}

static uint64_t make_genbank(const struct line *l)
{
    size_t letters = mirror_first(mirror_length(store, sizeof store));
    uint64_t answer = mirror_genbank(store, sizeof store, text, room(l, 1, MIRROR_GENBANK_SIZE(letters), sizeof text));
    written = mirror_first(answer);
    return answer;
}

/* Every byte of the page; an LF, which no cell of a table can hold, as the mark for a new line there. */
static void say_genbank(const struct line *l, uint64_t answer)
{
    (void)l, (void)answer;
    for (unsigned i = 0; i < written; i++) {
        if (text[i] == '\n') printf("<br>");
        else putchar(text[i]);
    }
}

/* How many there are, and so the bytes that they take, is told by a first call with enough. */
static uint64_t make_minimal(const struct line *l)
{
    unsigned n = mirror_first(mirror_minimal_unique(store, sizeof store, text, sizeof text));
    return mirror_minimal_unique(store, sizeof store, text, room(l, 1, MIRROR_MINIMAL_UNIQUE_SIZE(n), sizeof text));
}

/* Where each of them stands, with its end one past its last letter. */
static void say_minimal(const struct line *l, uint64_t answer)
{
    (void)l;
    if (mirror_first(answer) == 0) printf("none");
    for (unsigned i = 0; i < mirror_first(answer); i++) printf("%s%u to %u", i ? ", " : "", mirror_start(text, i), mirror_end(text, i));
}

/* The same for the pieces; where the record is inverted they are refused, whatever is lent. */
static uint64_t make_pieces(const struct line *l)
{
    unsigned n = mirror_first(mirror_pieces(store, sizeof store, text, sizeof text));
    return mirror_pieces(store, sizeof store, text, room(l, 1, MIRROR_PIECES_SIZE(n), sizeof text));
}

/* How many there are, and where each ends, one past its last letter. */
static void say_pieces(const struct line *l, uint64_t answer)
{
    unsigned n = mirror_first(answer);
    (void)l;
    printf("%u piece%s", n, n == 1 ? "" : "s");
    for (unsigned i = 0; i < n; i++) printf("%s%u", i ? ", " : ", ending at ", mirror_piece_end(text, i));
}

/* The codes are a word of the line; the record has no part in it. */
static uint64_t make_uncertain(const struct line *l)
{
    return mirror_uncertain((const uint8_t *)l->words[1], strlen(l->words[1]));
}

static void say_uncertain(const struct line *l, uint64_t answer)
{
    (void)l;
    printf("%u for some choice, %u for every choice", mirror_first(answer), mirror_second(answer));
}

static uint64_t make_mark(const struct line *l)
{
    size_t lent = room(l, 3, MIRROR_MARKS_SIZE, sizeof marks);
    return mirror_mark(store, sizeof store, l->name.at, l->name.length, l->sheet.at, l->sheet.length, marks, lent);
}

/* No call is made: what the mark sheet holds is read. */
static uint64_t make_marks(const struct line *l) { return (void)l, 0; }

static void say_marks(const struct line *l, uint64_t answer)
{
    (void)l, (void)answer;
    printf("%" PRIu64 " right, %" PRIu64 " repeated, ", mirror_right(marks), mirror_repeated(marks));
    printf("%" PRIu64 " wrong, %" PRIu64 " missing", mirror_wrong(marks), mirror_missing(marks));
}

static void say_mark(const struct line *l, uint64_t answer)
{
    say_marks(l, answer);
    printf(mirror_flag(answer) ? "; full marks" : "; not full marks");
}

static const struct form forms[] = {
    {"open", NUMBER, "open CAPACITY", make_open, say_done},
    {"open-inverted", NUMBER, "open-inverted CAPACITY", make_open_inverted, say_done},
    {"turn", READING, "turn plain, turn inverted", make_turn, say_done},
    {"add", LETTER_AND_END, "add LETTER left, add LETTER right", make_add, say_add},
    {"remove", END, "remove left, remove right", make_remove, say_remove},
    {"length", NOTHING, "length", make_length, say_number},
    {"count", NOTHING, "count", make_count, say_number},
    {"longest", MAYBE_END, "longest, longest left, longest right", make_longest, say_longest},
    {"longest-length", NOTHING, "longest-length", make_longest_length, say_number},
    {"occurrences", NOTHING, "occurrences", make_occurrences, say_occurrences},
    {"letter", NUMBER, "letter PLACE", make_letter, say_letter},
    {"row", NUMBER, "row ROW", make_row, say_row},
    {"frequency", NUMBER, "frequency ROW", make_frequency, say_number},
    {"spell", NUMBER, "spell ROW", make_spell, say_spell},
    {"find", MAYBE_TEXT, "find PIECE", make_find, say_find},
    {"list", MAYBE_TEXT, "list IDENTIFIER", make_list, say_list},
    {"genbank", MAYBE_NUMBER, "genbank, genbank BYTES", make_genbank, say_genbank},
    {"minimal", MAYBE_NUMBER, "minimal, minimal BYTES", make_minimal, say_minimal},
    {"pieces", MAYBE_NUMBER, "pieces, pieces BYTES", make_pieces, say_pieces},
    {"uncertain", MAYBE_TEXT, "uncertain CODES", make_uncertain, say_uncertain},
    {"mark", SHEET, "mark IDENTIFIER \"SHEET\", mark IDENTIFIER FILE, and BYTES behind it", make_mark, say_mark},
    {"marks", NOTHING, "marks", make_marks, say_marks},
    {"rows", NOTHING, "rows", NULL, NULL},
};

/* ---- reading */

static const char *file = "standard input";

/* Ends the program with a message that begins with the file's name. */
static void stop(const char *format, ...)
{
    va_list rest;
    va_start(rest, format);
    fprintf(stderr, "key: %s", file);
    vfprintf(stderr, format, rest);
    fprintf(stderr, "\n");
    exit(1);
}

/* The whole file, with a zero byte behind it; NULL where it cannot be read or held, and errno says why. */
static char *read_all(FILE *in, size_t *length)
{
    size_t room = 1 << 16, n = 0;
    char *bytes = malloc(room);
    while (bytes) {
        n += fread(bytes + n, 1, room - n - 1, in);
        if (ferror(in) || feof(in)) break;
        bytes = realloc(bytes, room *= 2);
    }
    if (bytes && ferror(in)) {
        int why = errno;
        free(bytes);
        errno = why;
        return NULL;
    }
    if (bytes) bytes[n] = 0;
    *length = n;
    return bytes;
}

static void number(struct line *l, const char *word, size_t at)
{
    for (const char *digit = word; *digit; digit++)
        if (!isdigit((unsigned char)*digit)) stop(", line %zu: '%.40s' is no number: %s", at, word, l->form->usage);
    errno = 0;
    l->number = strtoull(word, NULL, 10);
    if (errno == ERANGE) stop(", line %zu: the number is too long", at);
}

/* The value of a digit of base sixteen; -1 for any other byte. */
static int hex(char digit)
{
    static const char digits[] = "0123456789abcdef";
    const char *found = digit ? strchr(digits, tolower((unsigned char)digit)) : NULL;
    return found ? (int)(found - digits) : -1;
}

/* The byte that an escape stands for; it begins behind its backslash, and *c goes behind it. */
static uint8_t escape(const char **c, size_t at)
{
    static const char named[] = "tnr\\", bytes[] = "\t\n\r\\";
    const char *from = *c, *name = strchr(named, *from);
    int high = *from == 'x' ? hex(from[1]) : -1, low = high < 0 ? -1 : hex(from[2]);
    if (!name && low < 0) stop(", line %zu: '\\%.1s' is none of \\t, \\n, \\r, \\\\ and \\xNN", at, from);
    *c += name ? 1 : 3;
    return name ? (uint8_t)bytes[name - named] : (uint8_t)(16 * high + low);
}

/* The bytes of a word: what stands between its quotes or, where it has none, the word itself. */
static struct bytes bytes_of(const char *word, size_t at)
{
    struct bytes b = {malloc(strlen(word) + 1), 0};
    const char *c = word + (*word == '"'), *end = *word == '"' ? strchr(c, '"') : word + strlen(word);
    if (!b.at) stop(": too long to be held in memory");
    if (!end) stop(", line %zu: a quote that is not closed", at);
    if (*end && end[1]) stop(", line %zu: '%.40s' behind the closing quote", at, end + 1);
    while (c < end) {
        uint8_t byte = (uint8_t)*c++;
        b.at[b.length++] = *end && byte == '\\' ? escape(&c, at) : byte;
    }
    return b;
}

/* A sheet: what stands between quotes or, where there are none, in the file of this name. */
static struct bytes sheet_of(const char *word, size_t at)
{
    struct bytes b = {0};
    if (*word == '"') return bytes_of(word, at);
    FILE *in = fopen(word, "rb");
    if (in) b.at = (uint8_t *)read_all(in, &b.length);
    if (!b.at) stop(", line %zu: %s: %s", at, word, strerror(errno));
    fclose(in);
    return b;
}

/* Whether the last of so many words names an end; which one is noted. */
static int end(struct line *l, size_t words)
{
    l->left = strcmp(l->words[words - 1], "left") == 0;
    return l->left || strcmp(l->words[words - 1], "right") == 0;
}

static int names_reading(const struct line *l)
{
    return strcmp(l->words[1], "plain") == 0 || strcmp(l->words[1], "inverted") == 0;
}

static int opens(const struct form *form)
{
    return form->make == make_open || form->make == make_open_inverted;
}

static int fits(struct line *l, size_t words)
{
    switch (l->form->takes) {
    case NOTHING: return words == 1;
    case NUMBER: return words == 2;
    case MAYBE_NUMBER: return words <= 2;
    case END: return words == 2 && end(l, words);
    case MAYBE_END: return words == 1 || (words == 2 && end(l, words));
    case LETTER_AND_END: return words == 3 && strlen(l->words[1]) == 1 && end(l, words);
    case READING: return words == 2 && names_reading(l);
    case SHEET: return words == 3 || words == 4;
    default: return words <= 2; /* MAYBE_TEXT */
    }
}

/* Where a word ends: at a blank, which between quotes is no end. */
static char *word_end(char *word)
{
    char *from = *word == '"' ? strchr(word + 1, '"') : word;
    return from ? from + strcspn(from, " \t") : word + strlen(word);
}

/* Cuts a line into words; how many, 0 where it is empty. A byte that a line of the table could not show ends it all. */
static size_t cut(char *line, struct line *l, size_t at)
{
    size_t words = 0;
    for (size_t i = 0; i < WORDS; i++) l->words[i] = "";
    for (char *c = line; *c; c++)
        if (*c == '|' || (!isblank((unsigned char)*c) && !isgraph((unsigned char)*c))) stop(", line %zu: a byte that no call has", at);
    for (char *c = line + strspn(line, " \t"); *c && words < WORDS; c += strspn(c, " \t")) {
        l->words[words++] = c;
        c = word_end(c);
        if (*c) *c++ = 0;
    }
    return words;
}

static void read_call(struct line *l, size_t words, size_t at)
{
    for (size_t i = 0; i < sizeof forms / sizeof forms[0]; i++)
        if (strcmp(l->words[0], forms[i].name) == 0) l->form = &forms[i];
    if (!l->form) stop(", line %zu: '%.40s' is no call", at, l->words[0]);
    if (!fits(l, words)) stop(", line %zu: no call like this: %s", at, l->form->usage);
    if (l->form->takes == NUMBER || (l->form->takes == MAYBE_NUMBER && words == 2)) number(l, l->words[1], at);
    if (l->form->takes != SHEET) return;
    number(l, l->words[3], at);
    l->name = bytes_of(l->words[1], at);
    l->sheet = sheet_of(l->words[2], at);
}

/* Puts a zero byte in place of the line's LF or CR LF; where the next line begins. */
static char *end_line(char *line, char *end, size_t at)
{
    char *lf = memchr(line, '\n', (size_t)(end - line)), *last = lf ? lf : end;
    if (last > line && last[-1] == '\r') last--;
    *last = 0;
    if (strlen(line) != (size_t)(last - line)) stop(", line %zu: a byte that no call has", at);
    return lf ? lf + 1 : end;
}

/* Reads the lines from here to the end, all of them before the first call is made; how many are calls or titles. */
static size_t read_lines(char *line, char *end, struct line *lines)
{
    size_t n = 0, calls = 0, words;
    char *next;
    for (size_t at = 1; line < end; at++, line = next) {
        struct line *l = &lines[n];
        next = end_line(line, end, at);
        *l = (struct line){0};
        if (*line == '#') {
            l->words[0] = line;
        } else {
            if ((words = cut(line, l, at)) == 0) continue;
            read_call(l, words, at);
            if (calls++ == 0 && !opens(l->form)) stop(", line %zu: a call before the opening", at);
        }
        n++;
    }
    if (calls == 0) stop(": no call in it");
    return n;
}

/* ---- printing */

enum block { NONE, CALLS, OTHER };

/* A blank line between two blocks, and the head of a table of calls. */
static void enter(enum block *now, enum block next)
{
    if (*now != NONE && (*now != CALLS || next != CALLS)) puts("");
    if (*now != CALLS && next == CALLS) puts("| call | answer | letters after it |\n|---|---|---|");
    *now = next;
}

static void print_rows(void)
{
    puts("| row | repeat | length | link | inner row |\n|---|---|---|---|---|");
    for (unsigned row = 2; row < MOST + 2; row++) {
        uint64_t answer = mirror_row(store, sizeof store, row);
        if (mirror_refusal(answer)) continue;
        spell(row);
        printf("| %u | ", row);
        say_text();
        printf(" | %d | %u | %u |\n", mirror_signed_first(answer), mirror_row_of(answer), mirror_second(answer));
    }
}

/* The letters of the record, and the end of the line. */
static void print_letters(void)
{
    unsigned n = mirror_first(mirror_length(store, sizeof store));
    for (unsigned i = 0; i < n; i++) putchar((int)mirror_first(mirror_letter(store, sizeof store, i)));
    puts(n ? " |" : "|");
}

static void print_call(const struct line *l)
{
    printf("|");
    for (size_t i = 0; i < WORDS && *l->words[i]; i++) printf(" %s", l->words[i]);
    printf(" | ");
    uint64_t answer = l->form->make(l);
    if (mirror_refusal(answer)) printf("refused %u", mirror_refusal(answer));
    else l->form->say(l, answer);
    printf(" | ");
    print_letters();
}

static void print_key(const struct line *lines, size_t n)
{
    enum block now = NONE;
    for (size_t i = 0; i < n; i++) {
        const struct form *form = lines[i].form;
        enter(&now, form && form->make ? CALLS : OTHER);
        if (!form) puts(lines[i].words[0]);
        else if (!form->make) print_rows();
        else print_call(&lines[i]);
    }
}

int main(int argc, char **argv)
{
    if (argc > 2) {
        fprintf(stderr, "usage: key [FILE]\n");
        return 1;
    }
    if (argc == 2) file = argv[1];
    FILE *in = argc == 2 ? fopen(file, "r") : stdin;
    if (!in) stop(": %s", strerror(errno));
    size_t length;
    char *bytes = read_all(in, &length);
    if (!bytes) stop(": %s", strerror(errno));
    struct line *lines = calloc(length / 2 + 2, sizeof *lines); /* a line that counts has a byte and, but for the last, an LF */
    if (!lines) stop(": too long to be held in memory");
    size_t n = read_lines(bytes, bytes + length, lines);
    print_key(lines, n);
    if (fflush(stdout) != 0 || ferror(stdout)) stop(": the key could not be written: %s", strerror(errno));
    for (size_t i = 0; i < n; i++) free(lines[i].name.at), free(lines[i].sheet.at);
    free(lines);
    free(bytes);
    return 0;
}

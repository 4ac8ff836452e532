/* Holds keys (docs/SITTINGS.md, examples/NAME.key) against a program that tries every stretch. The letters and the reading
 * after each call follow from the calls that the key says were accepted, and so do the rows: a new repeat takes the row that
 * was freed last or, where none is left of those, the lowest that was never taken; an opening and a turn to the other reading
 * begin anew, and after a turn the repeats take their rows in the order in which they first end. So every accepted call has one
 * right answer, and every table of rows one right content; the page of a record is that of a second writer, and the lengths of a text
 * of uncertain bases, or its refusal, are those of a second program, which makes every choice where the text is short. What is said of
 * the fewest pieces is judged where they are refused too, and so is what is said of candidates' sheets, by a second marker; what the mark
 * sheet holds follows from the sheets that were accepted. A dozen
 * sittings, each with a title of its own (##), are the least. It makes no call: that the library answers what the keys say is what
 * tests/key looks at. Usage: samples KEY.. */
#include "brute.h"
#include "second_marker.h"
#include "second_page.h"
#include "second_uncertain.h"
#include <ctype.h>
#include <stdio.h>
#include <stdlib.h>
#include <string.h>

enum { MOST = 64, CELLS = 8, LINE = 4096 };

typedef struct { unsigned row; size_t length; unsigned char word[MOST]; } repeat;

static const char *file = "samples";
static int line_number, sittings, calls, judged, tables;
static enum { NONE, CALLS, ROWS } table;
static unsigned last_row, row_lines; /* of the table of rows that is being read */

static unsigned reading;
static const unsigned char *rule; /* of that reading */
static unsigned char letters[MOST + 1];
static size_t size;
static repeat held[MOST]; /* what stands, in any order */
static size_t count;
static unsigned free_rows[MOST]; /* the last is taken next */
static size_t free_count;
static second_counts marks; /* what the mark sheet holds */

static void fail(const char *what, const char *key, const char *found)
{
    printf("%s, line %d: %s: the key says '%s', found '%s'\n", file, line_number, what, key, found);
    exit(1);
}

static void compare(const char *what, const char *key, const char *found)
{
    if (strcmp(key, found) != 0) fail(what, key, found);
}

/* ---- the record and its rows */

/* an opened record; its letters, if any, are put in later */
static void begin(unsigned read_so)
{
    reading = read_so;
    rule = brute_rule(reading);
    count = 0;
    for (free_count = 0; free_count < MOST; free_count++) free_rows[free_count] = (unsigned)(MOST + 1 - free_count);
}

static repeat *find(const unsigned char *word, size_t m)
{
    for (size_t i = 0; i < count; i++)
        if (held[i].length == m && memcmp(held[i].word, word, m) == 0) return &held[i];
    return NULL;
}

static repeat *find_row(unsigned row)
{
    for (size_t i = 0; i < count; i++)
        if (held[i].row == row) return &held[i];
    fail("a row", "in use", "free");
    return NULL;
}

/* the row of a repeat that stands, 1 for the empty string */
static unsigned row_of(const unsigned char *word, size_t m)
{
    const repeat *r = find(word, m);
    if (m > 0 && !r) fail("a repeat without a row", (const char *)letters, (const char *)word);
    return m > 0 ? r->row : 1;
}

static const repeat *take_row(const unsigned char *word, size_t m)
{
    repeat *r = &held[count++];
    r->row = free_rows[--free_count];
    r->length = m;
    memcpy(r->word, word, m);
    return r;
}

static void free_row(repeat *r)
{
    free_rows[free_count++] = r->row;
    *r = held[--count];
}

static void turn(unsigned to)
{
    stretch all[MOST];
    if (to == reading) return;
    begin(to);
    size_t repeats = brute_list(rule, letters, size, all);
    for (size_t i = 0; i < repeats; i++) take_row(letters + all[i].start, all[i].end - all[i].start);
}

/* the longest repeat at an end; its length */
static size_t at_end(int left, const unsigned char **word)
{
    size_t m = left ? brute_left(rule, letters, size) : brute_right(rule, letters, size);
    *word = left ? letters : letters + size - m;
    return m;
}

static void add(int left, char letter, char *said)
{
    const unsigned char *word;
    if (size == MOST) fail("letters", "too many", "");
    size_t steps = left || reading != PLAIN ? 0 : brute_steps(rule, letters, size, (unsigned char)letter);
    memmove(letters + left, letters, size);
    letters[left ? 0 : size] = (unsigned char)letter;
    size++;
    size_t m = at_end(left, &word);
    if (m == 0 || find(word, m)) said += sprintf(said, "none new");
    else said += sprintf(said, "%.*s is new, row %u", (int)m, (const char *)word, take_row(word, m)->row);
    if (steps > 0) sprintf(said, "; %zu passed", steps);
}

static void take_away(int left, char *said)
{
    const unsigned char *word;
    if (size == 0) fail("a removal", "accepted", "no letter");
    said += sprintf(said, "%c; ", letters[left ? 0 : size - 1]);
    size_t m = at_end(left, &word);
    repeat *longest = m ? find(word, m) : NULL;
    size--;
    if (left) memmove(letters, letters + 1, size);
    if (!longest || brute_first(longest->word, m, letters, size) <= size) strcpy(said, "none goes");
    else {
        sprintf(said, "%.*s goes, row %u", (int)m, (const char *)longest->word, longest->row);
        free_row(longest);
    }
}

/* ---- questions */

static void say_end(int left, char *said)
{
    const unsigned char *word;
    size_t m = at_end(left, &word), first;
    int once = m > 0 && brute_places(word, m, letters, size, &first) == 1;
    sprintf(said, "row %u, %s", row_of(word, m), once ? "once only" : "not once only");
}

/* a row's link and inner row; rows 0 and 1 have neither */
static void fields(const repeat *r, unsigned *link, unsigned *inner)
{
    size_t m = r->length, shorter = brute_link(rule, r->word, m);
    *link = row_of(r->word + m - shorter, shorter);
    *inner = m == 1 ? 0 : row_of(r->word + 1, m - 2);
}

static void say_row(unsigned row, char *said)
{
    unsigned link = 0, inner = 0;
    if (row >= 2) fields(find_row(row), &link, &inner);
    sprintf(said, "length %d, link %u, inner %u", row >= 2 ? (int)find_row(row)->length : (int)row - 1, link, inner);
}

static void say_spelling(unsigned row, char *said)
{
    if (row < 2) strcpy(said, "nothing");
    else sprintf(said, "%.*s", (int)find_row(row)->length, (const char *)find_row(row)->word);
}

static void say_frequency(unsigned row, char *said)
{
    const repeat *r = find_row(row);
    size_t first;
    sprintf(said, "%zu", brute_places(r->word, r->length, letters, size, &first));
}

/* all that stand counted by place: over the rows in use, and over the right ends */
static void say_occurrences(char *said)
{
    size_t by_rows = 0, first;
    for (size_t i = 0; i < count; i++) by_rows += brute_places(held[i].word, held[i].length, letters, size, &first);
    sprintf(said, "%zu by rows, %zu by ends", by_rows, brute_by_ends(rule, letters, size));
}

static void say_found(const char *piece, char *said)
{
    const unsigned char *word = (const unsigned char *)piece;
    const repeat *r = find(word, strlen(piece));
    size_t pair = brute_mismatch(rule, word, strlen(piece));
    if (r) sprintf(said, "row %u", r->row);
    else if (pair > 0) sprintf(said, "absent, pair %zu breaks", pair);
    else strcpy(said, "absent");
}

static void say_list(const stretch *all, size_t repeats, char *said)
{
    if (repeats == 0) strcpy(said, "nothing");
    for (size_t i = 0; i < repeats; i++) said += sprintf(said, "%s%zu-%zu", i ? " " : "", all[i].start, all[i].end);
}

/* the page with its LFs as a cell shows them; where the call names the bytes that it lends, they must be enough */
static void say_page(const char *room, char *said)
{
    char page[SECOND_PAGE_ROOM];
    size_t n = second_page(letters, size, page);
    if (*room && strtoul(room, NULL, 10) < n) fail("a page into too few bytes", "accepted", room);
    for (size_t i = 0; i < n; i++) said += sprintf(said, page[i] == '\n' ? "<br>" : "%c", page[i]);
}

/* where the minimal unique ones stand; here too the bytes that a call names must be enough, four for each */
static void say_minimal(const char *room, char *said)
{
    stretch all[MOST];
    size_t n = brute_minimal_unique(rule, letters, size, all);
    if (*room && strtoul(room, NULL, 10) < 4 * n) fail("a list into too few bytes", "accepted", room);
    if (n == 0) strcpy(said, "none");
    for (size_t i = 0; i < n; i++) said += sprintf(said, "%s%zu to %zu", i ? ", " : "", all[i].start, all[i].end);
}

/* the fewest pieces and where each ends; an inverted record is refused before the bytes that a call names are looked at */
static void say_pieces(const char *room, char *said)
{
    size_t ends[MOST], n = brute_pieces(letters, size, ends);
    int refused = reading != PLAIN ? 14 : *room && strtoul(room, NULL, 10) < 2 * n ? 9 : 0;
    said += refused ? sprintf(said, "refused %d", refused) : sprintf(said, "%zu piece%s", n, n == 1 ? "" : "s");
    for (size_t i = 0; !refused && i < n; i++) said += sprintf(said, "%s%zu", i ? ", " : ", ending at ", ends[i]);
}

/* whether a call has this name, with or without an argument */
static int is_call(const char *call, const char *name)
{
    size_t n = strlen(name);
    return strncmp(call, name, n) == 0 && (call[n] == 0 || call[n] == ' ');
}

static void say_uncertain(const char *codes, char *said)
{
    const uint8_t *bytes = (const uint8_t *)codes;
    size_t n = strlen(codes);
    unsigned refusal = second_refusal(bytes, n);
    second_longest of = {0};
    if (refusal == 0) of = n <= MOST_CHOSEN ? second_by_choices(bytes, n) : second_by_stretches(bytes, n);
    if (refusal) sprintf(said, "refused %u", refusal);
    else sprintf(said, "%zu for some choice, %zu for every choice", of.some.length, of.every.length);
}

/* the bytes of a word, from *c on: those between quotes, or up to a blank; *c goes behind it. The escapes are those of examples/key.c */
static size_t word_bytes(const char **c, uint8_t *bytes)
{
    const char *at = *c + (**c == '"'), end = **c == '"' ? '"' : ' ';
    unsigned byte;
    size_t n = 0;
    for (; *at && *at != end; n++) {
        if (end == ' ' || *at != '\\') bytes[n] = (uint8_t)*at++;
        else if (sscanf(at, "\\x%2x", &byte) == 1) bytes[n] = (uint8_t)byte, at += 4;
        else bytes[n] = at[1] == 't' ? '\t' : at[1] == 'n' ? '\n' : at[1] == 'r' ? '\r' : '\\', at += 2;
    }
    *c = at + (end == '"' && *at);
    return n;
}

static int is_identifier(const uint8_t *name, size_t n)
{
    for (size_t i = 0; i < n; i++)
        if (!isalnum(name[i]) && name[i] != '_') return 0;
    return n >= 1 && n <= 32;
}

static char *say_marks(char *said)
{
    unsigned long long right = marks.right, repeated = marks.repeated, wrong = marks.wrong, missing = marks.missing;
    return said + sprintf(said, "%llu right, %llu repeated, %llu wrong, %llu missing", right, repeated, wrong, missing);
}

/* the identifier is looked at first, then the sheet, then the bytes that a call names; what is refused leaves the mark sheet as it was */
static void say_mark(const char *about, char *said)
{
    uint8_t name[LINE], sheet[LINE];
    size_t m = word_bytes(&about, name);
    if (strncmp(about, " \"", 2) != 0) fail("a sheet", "between quotes", about);
    about++;
    size_t n = word_bytes(&about, sheet);
    int refused = !is_identifier(name, m) ? 10 : !second_is_sheet(sheet, n) ? 13 : *about && strtoul(about, NULL, 10) < 32 ? 9 : 0;
    if (refused) {
        sprintf(said, "refused %d", refused);
        return;
    }
    marks = second_marks(rule, letters, size, name, m, sheet, n);
    strcpy(say_marks(said), second_full(rule, letters, size, name, m, sheet, n) ? "; full marks" : "; not full marks");
}

/* what every stretch answers to a question */
static void ask(const char *call, char *said)
{
    stretch all[MOST], longest = brute_longest(rule, letters, size);
    size_t repeats = brute_list(rule, letters, size, all);
    const char *blank = strchr(call, ' '), *about = blank ? blank + 1 : "";
    unsigned number = (unsigned)strtoul(about, NULL, 10);
    if (strcmp(call, "length") == 0) sprintf(said, "%zu", size);
    else if (strcmp(call, "count") == 0) sprintf(said, "%zu", repeats);
    else if (strcmp(call, "longest") == 0) sprintf(said, "length %zu at %zu", longest.end - longest.start, longest.start);
    else if (strcmp(call, "longest-length") == 0) sprintf(said, "%zu", longest.end - longest.start);
    else if (strncmp(call, "longest ", 8) == 0) say_end(strcmp(about, "left") == 0, said);
    else if (strncmp(call, "letter ", 7) == 0) sprintf(said, "%.1s", number < size ? (const char *)letters + number : "");
    else if (strncmp(call, "row ", 4) == 0) say_row(number, said);
    else if (strncmp(call, "frequency ", 10) == 0) say_frequency(number, said);
    else if (strcmp(call, "occurrences") == 0) say_occurrences(said);
    else if (strncmp(call, "spell ", 6) == 0) say_spelling(number, said);
    else if (strncmp(call, "find ", 5) == 0) say_found(about, said);
    else if (strncmp(call, "list ", 5) == 0) say_list(all, repeats, said);
    else if (is_call(call, "genbank")) say_page(about, said);
    else if (is_call(call, "minimal")) say_minimal(about, said);
    else if (is_call(call, "pieces")) say_pieces(about, said);
    else if (is_call(call, "uncertain")) say_uncertain(about, said);
    else if (is_call(call, "mark")) say_mark(about, said);
    else if (strcmp(call, "marks") == 0) say_marks(said);
    else fail("a call", call, "none");
}

/* ---- tables of calls */

/* makes a call that the key calls accepted, on the letters and rows here, and writes what it must answer */
static void make(const char *call, char *said)
{
    int left = strstr(call, " left") != NULL, inverted = strstr(call, "inverted") != NULL;
    strcpy(said, "done");
    if (strncmp(call, "open", 4) == 0) size = 0, begin(inverted ? INVERTED : PLAIN);
    else if (strncmp(call, "turn ", 5) == 0) turn(inverted ? INVERTED : PLAIN);
    else if (strncmp(call, "add ", 4) == 0) add(left, call[4], said);
    else if (strncmp(call, "remove ", 7) == 0) take_away(left, said);
    else ask(call, said);
    letters[size] = 0;
}

/* whether refusals are judged too: they follow from the letters, or from the call */
static int judged_whole(const char *call)
{
    return is_call(call, "pieces") || is_call(call, "uncertain") || is_call(call, "mark");
}

static void call_line(char **cells)
{
    char said[LINE];
    calls++;
    if (strncmp(cells[1], "refused", 7) != 0 || judged_whole(cells[0])) {
        make(cells[0], said);
        compare(cells[0], cells[1], said);
        judged++;
    }
    compare("letters", cells[2], (const char *)letters);
}

/* ---- tables of rows */

/* one row of the table: in use, above those before it, with what its letters give */
static void row_line(char **cells)
{
    char wanted[5][LINE];
    unsigned link, inner, row = (unsigned)atoi(cells[0]);
    const repeat *r = find_row(row);
    fields(r, &link, &inner);
    sprintf(wanted[0], "%u", row);
    sprintf(wanted[1], "%.*s", (int)r->length, (const char *)r->word);
    sprintf(wanted[2], "%zu", r->length);
    sprintf(wanted[3], "%u", link);
    sprintf(wanted[4], "%u", inner);
    for (int i = 0; i < 5; i++) compare("a row", cells[i], wanted[i]);
    if (row <= last_row) fail("rows", cells[0], "a higher one before it");
    last_row = row;
    row_lines++;
}

/* the finished table of rows names every repeat that stands, as many as every stretch gives */
static void end_table(void)
{
    stretch all[MOST];
    if (row_lines != count || count != brute_list(rule, letters, size, all)) fail("how many rows", "another number", (const char *)letters);
    tables++;
    last_row = row_lines = 0;
}

/* ---- reading */

/* cuts a line of a table into its cells, without the blanks around them */
static int cut(char *line, char **cells)
{
    int found = 0;
    char *at = line + 1, *bar;
    for (; found < CELLS && (bar = strchr(at, '|')) != NULL; at = bar + 1) {
        char *end = bar;
        while (isspace((unsigned char)*at)) at++;
        while (end > at && isspace((unsigned char)end[-1])) end--;
        *end = 0;
        cells[found++] = at < bar ? at : end;
    }
    return found;
}

static void one_line(char *line)
{
    char *cells[CELLS];
    if (line[0] != '|') {
        if (table == ROWS) end_table();
        table = NONE;
        sittings += strncmp(line, "## ", 3) == 0;
        return;
    }
    int found = cut(line, cells);
    if (table == NONE) {
        table = found == 3 && strcmp(cells[0], "call") == 0 ? CALLS : found == 5 && strcmp(cells[0], "row") == 0 ? ROWS : NONE;
        if (table == NONE) fail("a table of another kind", cells[0], "");
    } else if (strncmp(cells[0], "---", 3) != 0) {
        if (found != (table == CALLS ? 3 : 5)) fail("cells in a line", cells[0], "another number");
        (table == CALLS ? call_line : row_line)(cells);
    }
}

static void one_key(const char *name)
{
    char line[LINE];
    int calls_before = calls, tables_before = tables;
    FILE *key = fopen(file = name, "r");
    if (key == NULL) fail("the file", "there", "not there");
    letters[size = 0] = 0;
    marks = (second_counts){0};
    begin(PLAIN);
    for (line_number = 1; fgets(line, sizeof line, key); line_number++) one_line(line);
    one_line((char[]){""});
    fclose(key);
    if (calls == calls_before || tables == tables_before) fail("calls and tables of rows", "some", "none");
}

int main(int argc, char **argv)
{
    for (int i = 1; i < argc; i++) one_key(argv[i]);
    if (sittings < 12) fail("sittings", "a dozen", "fewer");
    printf("%d sittings, %d calls, %d of them judged by every stretch, and %d tables of rows in %d keys\n", sittings, calls, judged, tables, argc - 1);
    return 0;
}

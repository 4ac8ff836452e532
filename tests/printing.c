/* The record printed as in GenBank, 02 (iv), through the C boundary: the page is held against that of a second writer and read
 * back column by column. Records of every number of letters from 0 to 130 and of 999 to 1,001, 1,023 and 1,024, in either reading
 * and turned, with their letters put in at the right, at the left, at both ends and between letters that go again, are printed into
 * every room from twelve bytes too few (short records from none) to twelve more than the page has; records that grow to 1,024
 * letters and shrink again are printed after every change. Too little room is 9 and leaves every byte; else the page stands at the
 * front, and every byte behind it stays. Before the call the room holds one of eleven byte values, most of which a page has too. The
 * page of a record that is turned is the same; no byte of a store may change; what is not good is 3, whatever the room. The
 * buffers end at a guard page or begin right after one. Usage: printing [seed] */
#include "brute.h"
#include "followed.h"
#include "guard.h"
#include "layout.h"
#include "mirror.h"
#include "random.h"
#include "second_page.h"
#include "written.h"
#include <ctype.h>
#include <stdio.h>
#include <string.h>

enum { MOST = LAYOUT_MOST, SHORT = 130, OTHERS = 7 };
enum { AT_THE_RIGHT, AT_THE_LEFT, AT_BOTH_ENDS, BETWEEN_OTHERS, WAYS };

static unsigned long read_back, turned;

/* ---- one record */

/* a random letter at an end */
static void join(int left)
{
    followed_join(left, (unsigned char)"ACGT"[random_below(4)]);
}

static void turn(void)
{
    followed_turn();
    turned++;
}

/* n random letters as a record, which is opened in the other reading where it is turned then */
static void make_record(unsigned wanted, size_t n, int way, int turns)
{
    size_t others = way == BETWEEN_OTHERS && n + 2 * OTHERS <= MOST ? OTHERS : 0;
    followed_open(turns ? !wanted : wanted, n + 2 * others + (n < MOST));
    for (size_t i = 0; i < n + 2 * others; i++) join(way == AT_THE_LEFT || (way != AT_THE_RIGHT && random_below(2)));
    for (size_t i = 0; i < 2 * others; i++) followed_leave(i % 2 == 0);
    if (turns) turn();
}

/* ---- one page */

/* the page of the letters that the record must have now */
static void choose_page(void)
{
    asked.need = second_page(record.letters, record.size, (char *)asked.bytes);
    asked.answer = (uint64_t)asked.need << 32;
    must("the length by the header", asked.need, MIRROR_GENBANK_SIZE(record.size));
    written_keep();
}

/* One line, column by column: nine for the place of its first letter, then in each eleventh column, from the first behind them
 * on, a blank, and in every other one the small form of the letter that the record answers. */
static const uint8_t *read_line(const uint8_t *line, size_t first)
{
    unsigned place = 0;
    size_t at = first, column;
    for (column = 0; column < 9; column++) {
        must("neither blank nor digit before the letters", 1, isdigit(line[column]) || (line[column] == ' ' && place == 0));
        if (line[column] != ' ') place = 10 * place + line[column] - '0';
        must("a zero in front", 0, line[column] == '0' && place == 0);
    }
    must("the place of a line's first letter", first + 1, place);
    for (; line[column] != '\n'; column++) {
        int blank = (column - 9) % 11 == 0;
        must("a line goes on behind the letters", 1, at < record.size && at < first + 60);
        must("a column", blank ? ' ' : (uint64_t)tolower((int)mirror_first(mirror_letter(record.store, record.length, at))), line[column]);
        at += !blank;
    }
    must("a line ends before the letters do", 1, at == record.size || at == first + 60);
    return line + column + 1;
}

/* what was printed last, read without the second writer */
static void read_page(void)
{
    const uint8_t *line = asked.out;
    must("the first line", 0, memcmp(line, "ORIGIN\n", 7) != 0);
    line += 7;
    for (size_t first = 0; first < record.size; first += 60) line = read_line(line, first);
    must("the last line", 0, memcmp(line, "//\n", 3) != 0);
    must("the page's length", asked.need, (uint64_t)(line + 3 - asked.out));
    read_back++;
}

/* the record turned: the same bytes, and again the same once it is turned back */
static void either_reading(void)
{
    for (int i = 0; i < 2; i++) {
        turn();
        written_keep();
        for (size_t room = asked.need - 1; room <= asked.need + 1; room++) written_ask(room);
        written_store_stays();
    }
}

/* ---- all of it */

static void one_record(unsigned wanted, size_t n, int way, int turns)
{
    guard_at((n + (size_t)way) % 2 ? GUARD_BEFORE : GUARD_AFTER);
    make_record(wanted, n, way, turns);
    choose_page();
    written_about();
    read_page();
    either_reading();
    written_damage();
}

/* a record that grows to 1,024 letters and shrinks again, with the page after every change into just its bytes, one more, or one
 * fewer */
static void moving_record(unsigned wanted, int way)
{
    guard_at(way % 2 ? GUARD_BEFORE : GUARD_AFTER);
    followed_open(wanted, MOST);
    for (size_t i = 0; i <= 2 * MOST; i++) {
        choose_page();
        written_ask(asked.need);
        written_ask(i % 2 ? asked.need - 1 : asked.need + 1);
        written_store_stays();
        int left = way == AT_THE_LEFT || (way == AT_BOTH_ENDS && random_below(2));
        if (i < MOST) join(left);
        else if (record.size > 0) followed_leave(left);
    }
}

int main(int argc, char **argv)
{
    static const size_t lengths[] = {999, 1000, 1001, 1023, 1024};
    random_seed(argc > 1 ? argv[1] : NULL, 20261120);
    asked.call = mirror_genbank;
    for (unsigned wanted = PLAIN; wanted < READINGS; wanted++) {
        for (size_t n = 0; n <= SHORT; n++)
            for (int way = 0; way < WAYS; way++) one_record(wanted, n, way, (n + (size_t)way) % 3 == 0);
        for (size_t i = 0; i < sizeof lengths / sizeof lengths[0]; i++) one_record(wanted, lengths[i], (int)(i + wanted) % WAYS, i % 2 == 0);
        for (int way = 0; way <= AT_BOTH_ENDS; way++) moving_record(wanted, way);
    }
    printf("%lu pages of 0 to 1,024 letters, %lu of them read back, after %lu turns; %lu rooms too small and %lu stores that are not good refused\n",
           asked.lent, read_back, turned, asked.refused, asked.damaged);
    return 0;
}

/* An empty buffer may come with any pointer: none is followed, and the call answers as it does for any empty buffer. */
#include "mirror.h"
#include <stdio.h>
#include <stdlib.h>

static uint8_t store[MIRROR_STORE_SIZE(4)];
static unsigned asked;

static void must(const char *what, uint64_t got, uint64_t wanted)
{
    asked++;
    if (got == wanted) return;
    printf("%s: wanted %llx, got %llx\n", what, (unsigned long long)wanted, (unsigned long long)got);
    exit(1);
}

/* every call with an empty store at p */
static void no_store(uint8_t *p)
{
    must("open", mirror_open(p, 0, 1), MIRROR_STORE_SHORT);
    must("open_inverted", mirror_open_inverted(p, 0, 1), MIRROR_STORE_SHORT);
    must("add_left", mirror_add_left(p, 0, 'A'), MIRROR_DAMAGED);
    must("add_right", mirror_add_right(p, 0, 'A'), MIRROR_DAMAGED);
    must("remove_left", mirror_remove_left(p, 0), MIRROR_DAMAGED);
    must("remove_right", mirror_remove_right(p, 0), MIRROR_DAMAGED);
    must("turn_plain", mirror_turn_plain(p, 0), MIRROR_DAMAGED);
    must("turn_inverted", mirror_turn_inverted(p, 0), MIRROR_DAMAGED);
    must("length", mirror_length(p, 0), MIRROR_DAMAGED);
    must("count", mirror_count(p, 0), MIRROR_DAMAGED);
    must("longest", mirror_longest(p, 0), MIRROR_DAMAGED);
    must("longest_length", mirror_longest_length(p, 0), MIRROR_DAMAGED);
    must("longest_left", mirror_longest_left(p, 0), MIRROR_DAMAGED);
    must("longest_right", mirror_longest_right(p, 0), MIRROR_DAMAGED);
    must("occurrences", mirror_occurrences(p, 0), MIRROR_DAMAGED);
    must("letter", mirror_letter(p, 0, 0), MIRROR_DAMAGED);
    must("row", mirror_row(p, 0, 0), MIRROR_DAMAGED);
    must("frequency", mirror_frequency(p, 0, 0), MIRROR_DAMAGED);
    must("spell", mirror_spell(p, 0, 1, p, 0), MIRROR_DAMAGED);
    must("find", mirror_find(p, 0, p, 0), MIRROR_DAMAGED);
    must("list", mirror_list(p, 0, p, 0, p, 0, p, 0), MIRROR_DAMAGED);
    must("genbank", mirror_genbank(p, 0, p, 0), MIRROR_DAMAGED);
    must("minimal_unique", mirror_minimal_unique(p, 0, p, 0), MIRROR_DAMAGED);
    must("pieces", mirror_pieces(p, 0, p, 0), MIRROR_DAMAGED);
    must("mark", mirror_mark(p, 0, p, 0, p, 0, p, 0), MIRROR_DAMAGED);
}

/* an empty sheet has full marks where no repeat stands, and it is a sheet; without a mark sheet it is refused all the same */
static void no_sheet(uint8_t *p, unsigned repeats)
{
    uint8_t marks[MIRROR_MARKS_SIZE] = {1};
    must("no identifier to mark by", mirror_mark(store, sizeof store, p, 0, p, 0, p, 0), MIRROR_IDENTIFIER);
    must("no line, and no mark sheet", mirror_mark(store, sizeof store, (const uint8_t *)"e1", 2, p, 0, p, 0), MIRROR_NO_ROOM);
    must("a line that is none", mirror_mark(store, sizeof store, (const uint8_t *)"e1", 2, (const uint8_t *)"\n", 1, p, 0), MIRROR_NO_SHEET);
    must("no line", mirror_mark(store, sizeof store, (const uint8_t *)"e1", 2, p, 0, marks, sizeof marks), repeats ? 0 : 1 << 8);
    must("right, repeated and wrong without a line", mirror_right(marks) + mirror_repeated(marks) + mirror_wrong(marks), 0);
    must("missing without a line", mirror_missing(marks), repeats);
}

/* every other buffer empty at p, with an empty record and with one of a letter */
static void no_buffer(uint8_t *p)
{
    mirror_open(store, sizeof store, 4);
    must("spell a root", mirror_spell(store, sizeof store, 1, p, 0), 0);
    must("find nothing", mirror_find(store, sizeof store, p, 0), MIRROR_NO_PIECE);
    must("no identifier", mirror_list(store, sizeof store, p, 0, p, 0, p, 0), MIRROR_IDENTIFIER);
    must("an empty list", mirror_list(store, sizeof store, (const uint8_t *)"e1", 2, p, 0, p, 0), 0);
    must("print an empty record", mirror_genbank(store, sizeof store, p, 0), MIRROR_NO_ROOM);
    must("no minimal unique repeat of nothing", mirror_minimal_unique(store, sizeof store, p, 0), 0);
    must("no piece of nothing", mirror_pieces(store, sizeof store, p, 0), 0);
    no_sheet(p, 0);
    mirror_add_right(store, sizeof store, 'A');
    must("print a letter", mirror_genbank(store, sizeof store, p, 0), MIRROR_NO_ROOM);
    must("a letter that stands once", mirror_minimal_unique(store, sizeof store, p, 0), MIRROR_NO_ROOM);
    must("a letter as a piece", mirror_pieces(store, sizeof store, p, 0), MIRROR_NO_ROOM);
    must("spell a letter", mirror_spell(store, sizeof store, 2, p, 0), MIRROR_NO_ROOM);
    must("list a letter", mirror_list(store, sizeof store, (const uint8_t *)"e1", 2, p, 0, p, 0), MIRROR_NO_ROOM);
    no_sheet(p, 1);
}

/* an inverted record of a letter has no repeat: it is listed with scratch and no output, and none is minimal unique; it is not cut, and
 * neither is an empty one */
static void no_repeat(uint8_t *p)
{
    uint8_t scratch[1];
    mirror_open_inverted(store, sizeof store, 4);
    must("pieces of nothing inverted", mirror_pieces(store, sizeof store, p, 0), MIRROR_INVERTED);
    must("an empty list", mirror_list(store, sizeof store, (const uint8_t *)"e1", 2, p, 0, p, 0), 0);
    mirror_add_right(store, sizeof store, 'A');
    must("no scratch", mirror_list(store, sizeof store, (const uint8_t *)"e1", 2, p, 0, p, 0), MIRROR_NO_ROOM);
    must("no output", mirror_list(store, sizeof store, (const uint8_t *)"e1", 2, scratch, sizeof scratch, p, 0), 0);
    must("no minimal unique repeat", mirror_minimal_unique(store, sizeof store, p, 0), 0);
    must("pieces of an inverted letter", mirror_pieces(store, sizeof store, p, 0), MIRROR_INVERTED);
    no_sheet(p, 0);
}

/* texts and letters at p */
static void no_text(uint8_t *p)
{
    must("no text", mirror_fasta(p, 0, p, 0), MIRROR_IDENTIFIER);
    must("no letters", mirror_fasta((const uint8_t *)">e1\n", 4, p, 0), 2ull << 32);
    must("no room", mirror_fasta((const uint8_t *)">e1\nA", 5, p, 0), MIRROR_NO_ROOM);
    must("no codes", mirror_uncertain(p, 0), 0);
}

int main(void)
{
    uint8_t *wild[] = {NULL, (uint8_t *)(uintptr_t)1, (uint8_t *)~(uintptr_t)0};
    for (unsigned i = 0; i < 3; i++) {
        no_store(wild[i]);
        no_buffer(wild[i]);
        no_repeat(wild[i]);
        no_text(wild[i]);
    }
    printf("%u calls with an empty buffer at no place\n", asked);
    return 0;
}

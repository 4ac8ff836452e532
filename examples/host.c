/* A sitting in C: two teams build ACGAAG from both ends, ask for its mirror repeats and which of them are minimal unique, cut it into
 * the fewest repeats, and take a letter away again. Then a record is read from a FASTA text and printed as in GenBank. At last a read with an uncertain base. */
#include "mirror.h"
#include <stdio.h>
#include <string.h>

enum { MOST = 64 };

static uint8_t store[MIRROR_STORE_SIZE(MOST)], scratch[MIRROR_LIST_SCRATCH(MOST)], text[MIRROR_LIST_SIZE(MOST)];

static uint64_t must(uint64_t answer)
{
    if (mirror_refusal(answer) != 0) printf("refused: %u\n", mirror_refusal(answer));
    return answer;
}

/* Opens the record afresh, adds the letters of a FASTA text at the right and prints its list and its letters. */
static void read_fasta(const char *fasta)
{
    uint8_t letters[MOST];
    uint64_t answer = must(mirror_fasta((const uint8_t *)fasta, strlen(fasta), letters, sizeof letters));

    must(mirror_open(store, sizeof store, MOST));
    for (size_t i = 0; i < mirror_second(answer); i++) must(mirror_add_right(store, sizeof store, letters[i]));
    unsigned n = mirror_first(must(mirror_list(store, sizeof store, (const uint8_t *)fasta + 1, mirror_first(answer), scratch, sizeof scratch, text, sizeof text)));
    fwrite(text, 1, n, stdout);
    n = mirror_first(must(mirror_genbank(store, sizeof store, text, sizeof text)));
    fwrite(text, 1, n, stdout);
}

int main(void)
{
    const char *right = "AAG", *left = "GCA";
    uint64_t answer;

    must(mirror_open(store, sizeof store, MOST));
    for (size_t i = 0; right[i]; i++) must(mirror_add_right(store, sizeof store, (uint64_t)right[i]));
    for (size_t i = 0; left[i]; i++) must(mirror_add_left(store, sizeof store, (uint64_t)left[i]));
    printf("%u letters, %u repeats\n", mirror_first(mirror_length(store, sizeof store)), mirror_first(mirror_count(store, sizeof store)));

    answer = must(mirror_longest(store, sizeof store));
    printf("longest: %u letters at place %u\n", mirror_first(answer), mirror_second(answer));

    answer = must(mirror_longest_right(store, sizeof store));
    unsigned row = mirror_row_of(answer);
    unsigned n = mirror_first(must(mirror_spell(store, sizeof store, row, text, sizeof text)));
    printf("at the right end: %.*s%s\n", (int)n, (const char *)text, mirror_flag(answer) ? ", once only" : "");

    n = mirror_first(must(mirror_list(store, sizeof store, (const uint8_t *)"e1", 2, scratch, sizeof scratch, text, sizeof text)));
    fwrite(text, 1, n, stdout);

    n = mirror_first(must(mirror_minimal_unique(store, sizeof store, text, sizeof text)));
    for (unsigned i = 0; i < n; i++) printf("minimal unique: %u to %u\n", mirror_start(text, i), mirror_end(text, i));

    n = mirror_first(must(mirror_pieces(store, sizeof store, text, sizeof text)));
    for (unsigned i = 0; i < n; i++) printf("piece %u of %u ends at %u\n", i + 1, n, mirror_piece_end(text, i));

    answer = must(mirror_remove_right(store, sizeof store));
    printf("removed %c, row %u %s\n", mirror_first(answer), mirror_row_of(answer), mirror_flag(answer) ? "went" : "stays");
    printf("GAAG is %s\n", mirror_flag(must(mirror_find(store, sizeof store, (const uint8_t *)"GAAG", 4))) ? "found" : "absent");
    printf("longest: %u letters\n", mirror_first(must(mirror_longest_length(store, sizeof store))));
    read_fasta(">e2 from a file\nACCA\nCG\n");
    answer = must(mirror_uncertain((const uint8_t *)"ANT", 3));
    printf("ANT: %u codes for some choice of bases, %u for every choice\n", mirror_first(answer), mirror_second(answer));
    return 0;
}

/* Restriction sites, as the catalogues of enzymes have them: what the inverted reading is for. A site that reads alike on both
 * strands is a repeat of every inverted record that holds it, and is found there; any other is absent, though it stands. The
 * records are a site between random letters, put together at the right or at both ends and taken apart again, and each site
 * alone. Some are opened inverted; others plain, where no site of the first kind is found, and are turned to the inverted
 * reading then. An absent site is told with the pair at which it breaks, in the record's reading; a site that is found has as many
 * places as it stands at. The longest length is that of the longest stretch that reads alike, and all places are as many as there
 * are such stretches. Minimal unique are those that stand once and have nothing within, or what stands again. No inverted record is
 * cut into pieces. The page of a record has its letters, in small ones, as a program would read them that passes over all else. On a
 * sheet of all places where a site of either table stands, those of the first kind are right, or repeated from the second place on, and
 * the others wrong; the list of a site alone has full marks. Whether letters read alike is tried here in a few lines, and no other
 * test's program is asked. A wrong answer is told on standard error, and the program ends with 1. */
#include "mirror.h"
#include "random.h"
#include <ctype.h>
#include <stdio.h>
#include <stdlib.h>
#include <string.h>

typedef struct {
    const char *enzyme, *site;
} entry;

/* sites that equal their own reverse complement: four letters, six, eight; some have several enzymes */
static const entry even[] = {
    {"AluI", "AGCT"}, {"BfaI", "CTAG"}, {"BstUI", "CGCG"}, {"CviAII", "CATG"}, {"CviQI", "GTAC"}, {"DpnI", "GATC"},
    {"DpnII", "GATC"}, {"FatI", "CATG"}, {"HaeIII", "GGCC"}, {"HhaI", "GCGC"}, {"HinP1I", "GCGC"}, {"HpaII", "CCGG"},
    {"HpyCH4IV", "ACGT"}, {"HpyCH4V", "TGCA"}, {"MboI", "GATC"}, {"MluCI", "AATT"}, {"MseI", "TTAA"}, {"MspI", "CCGG"},
    {"NlaIII", "CATG"}, {"RsaI", "GTAC"}, {"Sau3AI", "GATC"}, {"TaqI", "TCGA"},
    {"AatII", "GACGTC"}, {"Acc65I", "GGTACC"}, {"AclI", "AACGTT"}, {"AfeI", "AGCGCT"}, {"AflII", "CTTAAG"},
    {"AgeI", "ACCGGT"}, {"ApaI", "GGGCCC"}, {"ApaLI", "GTGCAC"}, {"AseI", "ATTAAT"}, {"AvrII", "CCTAGG"},
    {"BamHI", "GGATCC"}, {"BclI", "TGATCA"}, {"BglII", "AGATCT"}, {"BsiWI", "CGTACG"}, {"BspDI", "ATCGAT"},
    {"BspEI", "TCCGGA"}, {"BspHI", "TCATGA"}, {"BsrGI", "TGTACA"}, {"BssHII", "GCGCGC"}, {"BstBI", "TTCGAA"},
    {"ClaI", "ATCGAT"}, {"DraI", "TTTAAA"}, {"EagI", "CGGCCG"}, {"EcoRI", "GAATTC"}, {"EcoRV", "GATATC"},
    {"FspI", "TGCGCA"}, {"HindIII", "AAGCTT"}, {"HpaI", "GTTAAC"}, {"KasI", "GGCGCC"}, {"KpnI", "GGTACC"},
    {"MfeI", "CAATTG"}, {"MluI", "ACGCGT"}, {"MscI", "TGGCCA"}, {"NaeI", "GCCGGC"}, {"NarI", "GGCGCC"},
    {"NcoI", "CCATGG"}, {"NdeI", "CATATG"}, {"NgoMIV", "GCCGGC"}, {"NheI", "GCTAGC"}, {"NruI", "TCGCGA"},
    {"NsiI", "ATGCAT"}, {"PciI", "ACATGT"}, {"PmlI", "CACGTG"}, {"PsiI", "TTATAA"}, {"PspOMI", "GGGCCC"},
    {"PstI", "CTGCAG"}, {"PvuI", "CGATCG"}, {"PvuII", "CAGCTG"}, {"SacI", "GAGCTC"}, {"SacII", "CCGCGG"},
    {"SalI", "GTCGAC"}, {"ScaI", "AGTACT"}, {"SmaI", "CCCGGG"}, {"SnaBI", "TACGTA"}, {"SpeI", "ACTAGT"},
    {"SphI", "GCATGC"}, {"SspI", "AATATT"}, {"StuI", "AGGCCT"}, {"XbaI", "TCTAGA"}, {"XhoI", "CTCGAG"}, {"XmaI", "CCCGGG"},
    {"AscI", "GGCGCGCC"}, {"AsiSI", "GCGATCGC"}, {"FseI", "GGCCGGCC"}, {"MauBI", "CGCGCGCG"}, {"MreI", "CGCCGGCG"},
    {"NotI", "GCGGCCGC"}, {"PacI", "TTAATTAA"}, {"PmeI", "GTTTAAAC"}, {"SbfI", "CCTGCAGG"}, {"SrfI", "GCCCGGGC"},
    {"SwaI", "ATTTAAAT"},
};

/* sites that do not */
static const entry uneven[] = {
    {"AarI", "CACCTGC"}, {"AciI", "CCGC"}, {"AcuI", "CTGAAG"}, {"AlwI", "GGATC"}, {"BbsI", "GAAGAC"}, {"BbvCI", "CCTCAGC"},
    {"BbvI", "GCAGC"}, {"BccI", "CCATC"}, {"BciVI", "GTATCC"}, {"BmrI", "ACTGGG"}, {"BpmI", "CTGGAG"}, {"BsaI", "GGTCTC"},
    {"BseRI", "GAGGAG"}, {"BsgI", "GTGCAG"}, {"BsmAI", "GTCTC"}, {"BsmBI", "CGTCTC"}, {"BsmFI", "GGGAC"}, {"BsmI", "GAATGC"},
    {"BspMI", "ACCTGC"}, {"BspQI", "GCTCTTC"}, {"BsrBI", "CCGCTC"}, {"BsrDI", "GCAATG"}, {"BsrI", "ACTGG"},
    {"BssSI", "CACGAG"}, {"BtgZI", "GCGATG"}, {"BtsCI", "GGATG"}, {"BtsI", "GCAGTG"}, {"EarI", "CTCTTC"}, {"EciI", "GGCGGA"},
    {"BtsIMutI", "CAGTG"}, {"Esp3I", "CGTCTC"}, {"FokI", "GGATG"}, {"HgaI", "GACGC"}, {"HphI", "GGTGA"}, {"HpyAV", "CCTTC"},
    {"MboII", "GAAGA"}, {"MlyI", "GAGTC"}, {"MnlI", "CCTC"}, {"PleI", "GAGTC"}, {"SapI", "GCTCTTC"}, {"SfaNI", "GCATC"},
};

enum { EVEN = sizeof even / sizeof even[0], UNEVEN = sizeof uneven / sizeof uneven[0], DRAWS = 6, FLANK = 60, MOST = 2 * FLANK + 16 };

static uint8_t store[MIRROR_STORE_SIZE(2 * MOST)];
static size_t length;
static char letters[MOST + 1]; /* what the record must hold */
static const entry *at_hand;
static unsigned long answers, minimal, sheets, repeated_lines;

static void key(const char *what, uint64_t wanted, uint64_t got)
{
    answers++;
    if (wanted == got) return;
    fprintf(stderr, "%s %s in %s: %s: wanted %llu, got %llu\n", at_hand->enzyme, at_hand->site, letters, what,
            (unsigned long long)wanted, (unsigned long long)got);
    exit(1);
}

static char partner(char c)
{
    return c == 'A' ? 'T' : c == 'T' ? 'A' : c == 'C' ? 'G' : 'C';
}

/* the first pair from the outside, counted from 1, that breaks: in an inverted record the letters are held against their reverse
 * complement, in a plain one against their reversal; 0 where none does */
static uint64_t breaks(const char *w, size_t n, int inverted)
{
    for (size_t i = 0; i < n; i++) {
        char facing = w[n - 1 - i];
        if (w[i] != (inverted ? partner(facing) : facing)) return i + 1;
    }
    return 0;
}

/* whether the stretch equals its reverse complement */
static int reads_alike(const char *w, size_t n)
{
    return n > 0 && breaks(w, n, 1) == 0;
}

/* what a reader of GenBank files gets who takes all letters between the lines ORIGIN and // and minds neither places nor blanks */
static void prints_the_letters(void)
{
    uint8_t page[MIRROR_GENBANK_SIZE(MOST)];
    size_t n = strlen(letters), bytes = MIRROR_GENBANK_SIZE(n), at = 0;
    const uint8_t *end = page + bytes - 3;
    key("bytes printed", (uint64_t)bytes << 32, mirror_genbank(store, length, page, bytes));
    key("line ORIGIN", 0, memcmp(page, "ORIGIN\n", 7) != 0);
    key("line //", 0, memcmp(end, "//\n", 3) != 0);
    for (const uint8_t *c = page + 7; c < end; c++)
        if (isalpha(*c)) key("letter printed", at < n ? (uint64_t)tolower(letters[at++]) : 0, *c);
    key("letters printed", n, at);
}

static void holds_the_letters(void)
{
    size_t n = strlen(letters);
    key("length", (uint64_t)n << 32, mirror_length(store, length));
    for (size_t i = 0; i < n; i++) key("letter", (uint64_t)letters[i] << 32, mirror_letter(store, length, i));
    prints_the_letters();
}

/* the length of the longest stretch that reads alike */
static uint64_t longest_alike(void)
{
    size_t n = strlen(letters), longest = 0;
    for (size_t start = 0; start < n; start++)
        for (size_t end = start + longest + 1; end <= n; end++)
            if (reads_alike(letters + start, end - start)) longest = end - start;
    return longest;
}

static void longest_length(void)
{
    key("longest length", longest_alike() << 32, mirror_longest_length(store, length));
}

/* all stretches that read alike, as both sums of the record's places */
static void all_places(void)
{
    uint64_t n = strlen(letters), alike = 0;
    for (size_t start = 0; start < n; start++)
        for (size_t end = start + 1; end <= n; end++) alike += (uint64_t)reads_alike(letters + start, end - start);
    key("all places", alike << 16 | alike << 40, mirror_occurrences(store, length));
}

/* opens a record by the given call and puts in the letters: those from `from` on at the right, those before it at the left,
 * in an order by chance */
static void record(uint64_t (*open)(uint8_t *, size_t, uint64_t), size_t from)
{
    size_t n = strlen(letters), left = from, right = from, capacity = n + 1 + random_below(MOST);
    length = MIRROR_STORE_SIZE(capacity);
    memset(store, 0xee, sizeof store);
    key("open", 0, open(store, length, capacity));
    while (left > 0 || right < n) {
        int at_left = right == n || (left > 0 && random_below(2));
        uint64_t answer = at_left ? mirror_add_left(store, length, (unsigned char)letters[--left])
                                  : mirror_add_right(store, length, (unsigned char)letters[right++]);
        key("addition", 0, mirror_refusal(answer));
    }
    holds_the_letters();
}

static uint64_t find(const char *site, size_t n)
{
    return mirror_find(store, length, (const uint8_t *)site, n);
}

/* how often the piece stands, places that overlap among them */
static uint64_t places(const char *piece, size_t n)
{
    uint64_t found = 0;
    for (const char *at = letters; *at; at++) found += strncmp(at, piece, n) == 0;
    return found;
}

/* the stretches that read alike, stand once, and have no letter or what stands again between their first and their last letter */
static void minimal_unique(void)
{
    uint8_t wanted[4 * MOST], got[4 * MOST];
    size_t n = strlen(letters), bytes = 0;
    for (size_t start = 0; start < n; start++)
        for (size_t end = start + 2; end <= n; end += 2) { /* no stretch of odd length reads alike */
            const char *w = letters + start;
            if (!reads_alike(w, end - start) || places(w, end - start) != 1) continue;
            if (end - start > 2 && places(w + 1, end - start - 2) == 1) continue;
            wanted[bytes++] = (uint8_t)start, wanted[bytes++] = 0; /* no place of these records is above 255 */
            wanted[bytes++] = (uint8_t)end, wanted[bytes++] = 0;
        }
    if (bytes > 0) key("minimal unique, a byte too few", MIRROR_NO_ROOM, mirror_minimal_unique(store, length, got, bytes - 1));
    key("minimal unique", (uint64_t)(bytes / 4) << 32, mirror_minimal_unique(store, length, got, bytes));
    key("where they stand", 0, memcmp(wanted, got, bytes) != 0);
    minimal += bytes / 4;
}

/* an inverted record is not cut, whatever the room */
static void not_cut(void)
{
    uint8_t got[MIRROR_PIECES_SIZE(MOST)];
    key("pieces of an inverted record", MIRROR_INVERTED, mirror_pieces(store, length, got, sizeof got));
    key("pieces of an inverted record into no byte", MIRROR_INVERTED, mirror_pieces(store, length, NULL, 0));
}

/* what a sheet must have: lines of each kind, and how many repeats are missing */
typedef struct { uint64_t right, repeated, wrong, missing; } marks;

static void marked(const char *sheet, size_t bytes, const char *name, marks wanted)
{
    uint8_t got[MIRROR_MARKS_SIZE];
    uint64_t full = wanted.repeated + wanted.wrong + wanted.missing == 0;
    memset(got, 0xee, sizeof got);
    key("marks", full << 8, mirror_mark(store, length, (const uint8_t *)name, strlen(name), (const uint8_t *)sheet, bytes, got, sizeof got));
    key("right", wanted.right, mirror_right(got));
    key("repeated", wanted.repeated, mirror_repeated(got));
    key("wrong", wanted.wrong, mirror_wrong(got));
    key("missing", wanted.missing, mirror_missing(got));
    sheets++;
    repeated_lines += wanted.repeated;
}

/* the lines of a site at all of its places: one is right if it reads alike, unless another enzyme has the same site */
static size_t put_site(char *out, const entry *e, int known, marks *to)
{
    size_t n = strlen(e->site), written = 0;
    for (const char *at = strstr(letters, e->site); at; at = strstr(at + 1, e->site)) {
        size_t start = (size_t)(at - letters);
        written += (size_t)sprintf(out + written, "sites\t%zu\t%zu\n", start, start + n);
        *(!reads_alike(at, n) ? &to->wrong : known ? &to->repeated : &to->right) += 1;
        known = 1;
    }
    return written;
}

/* a sheet of every place of every site */
static void every_place(void)
{
    static char sheet[1 << 20];
    marks wanted = {0, 0, 0, 0};
    size_t written = 0;
    for (size_t i = 0; i < UNEVEN; i++) written += put_site(sheet + written, &uneven[i], 0, &wanted);
    for (size_t i = 0; i < EVEN; i++) {
        int known = 0;
        for (size_t k = 0; k < i; k++) known |= strcmp(even[k].site, even[i].site) == 0;
        written += put_site(sheet + written, &even[i], known, &wanted);
    }
    wanted.missing = mirror_first(mirror_count(store, length)) - wanted.right;
    marked(sheet, written, "sites", wanted);
}

/* the piece is found, its row has its length, stands as often as it does and spells it */
static void is_found(const char *piece, size_t n)
{
    uint8_t spelt[MOST];
    uint64_t answer = find(piece, n), row = mirror_row_of(answer);
    key("found", 1ull << 8 | row << 16, answer);
    key("its length", n, mirror_first(mirror_row(store, length, row)));
    key("its places", places(piece, n) << 32, mirror_frequency(store, length, row));
    key("bytes spelt", (uint64_t)n << 32, mirror_spell(store, length, row, spelt, n));
    key("spelling", 0, memcmp(spelt, piece, n) != 0);
}

/* the piece is absent from a record that is read so, and told with the pair at which it breaks */
static void is_absent(const char *piece, size_t n, int inverted)
{
    key("absent", breaks(piece, n, inverted) << 32, find(piece, n));
}

/* each site of the table is found in an inverted record where it stands and reads alike, and is absent otherwise; a plain record
 * is asked only for sites of the first table, and has none */
static void every_site(const entry *sites, size_t count, int inverted)
{
    const entry *of_the_record = at_hand;
    for (size_t i = 0; i < count; i++) {
        const char *site = sites[i].site;
        at_hand = &sites[i];
        if (inverted && reads_alike(site, strlen(site)) && strstr(letters, site)) is_found(site, strlen(site));
        else is_absent(site, strlen(site), inverted);
    }
    at_hand = of_the_record;
}

/* a plain record knows no site of the first table, for no letter is its own partner, until it is turned */
static void turn_inverted(void)
{
    every_site(even, EVEN, 0);
    key("turn", 0, mirror_turn_inverted(store, length));
    holds_the_letters();
}

/* takes so many letters away at the two ends, in an order by chance */
static void take_apart(size_t before, size_t after)
{
    size_t first = 0, n = strlen(letters);
    while (before + after > 0) {
        int at_left = after == 0 || (before > 0 && random_below(2));
        uint64_t answer = at_left ? mirror_remove_left(store, length) : mirror_remove_right(store, length);
        key("removal", 0, mirror_refusal(answer));
        key("letter removed", (uint64_t)letters[at_left ? first++ : --n], mirror_first(answer));
        if (first == n) key("the last letter was no repeat", 0, mirror_flag(answer));
        if (at_left) before--;
        else after--;
    }
    letters[n] = 0;
    memmove(letters, letters + first, n - first + 1);
    prints_the_letters();
}

/* one site between letters drawn by chance, put together at the right or around its middle, in an inverted record or in a plain
 * one that is turned; then those letters go, and at last its own */
static void between_flanks(const entry *e, int at_both_ends, int turned)
{
    size_t m = strlen(e->site), before = random_below(FLANK), after = random_below(FLANK), n = before + m + after;
    for (size_t i = 0; i < n; i++) letters[i] = "ACGT"[random_below(4)];
    memcpy(letters + before, e->site, m);
    letters[n] = 0;
    at_hand = e;
    record(turned ? mirror_open : mirror_open_inverted, at_both_ends ? before + m / 2 : 0);
    if (turned) turn_inverted();
    every_site(even, EVEN, 1);
    every_site(uneven, UNEVEN, 1);
    longest_length();
    all_places();
    minimal_unique();
    every_place();
    not_cut();
    take_apart(before, after);
    every_site(even, EVEN, 1);
    every_site(uneven, UNEVEN, 1);
    longest_length();
    all_places();
    minimal_unique();
    every_place();
    not_cut();
    take_apart(m / 2, m - m / 2);
    not_cut();
    key("repeats of no letters", 0, mirror_count(store, length));
    key("places of no letters", 0, mirror_occurrences(store, length));
    key("minimal unique of no letters", 0, mirror_minimal_unique(store, length, NULL, 0));
    key("longest length of no letters", 0, mirror_longest_length(store, length));
}

/* the lines of the list, by trying every stretch: each that reads alike, where it first stands */
static size_t lines_of(const entry *e, char *out)
{
    size_t n = strlen(letters), written = 0;
    for (size_t end = 1; end <= n; end++)
        for (size_t start = 0; start < end; start++) {
            size_t earlier = 0;
            while (strncmp(letters + earlier, letters + start, end - start) != 0) earlier++;
            if (earlier == start && reads_alike(letters + start, end - start))
                written += (size_t)sprintf(out + written, "%s\t%zu\t%zu\n", e->enzyme, start, end);
        }
    return written;
}

/* the site alone: all of its repeats are listed, and the site itself goes and comes with its last letter */
static void alone(const entry *e, int found)
{
    char wanted[MIRROR_LIST_SIZE(MOST)], got[MIRROR_LIST_SIZE(MOST)];
    uint8_t scratch[MIRROR_LIST_SCRATCH(MOST)];
    size_t n = strlen(e->site);
    strcpy(letters, e->site);
    at_hand = e;
    record(mirror_open_inverted, random_below((unsigned)n + 1));
    size_t bytes = lines_of(e, wanted);
    key("bytes listed", (uint64_t)bytes << 32,
        mirror_list(store, length, (const uint8_t *)e->enzyme, strlen(e->enzyme), scratch, sizeof scratch, (uint8_t *)got, bytes));
    key("list", 0, memcmp(wanted, got, bytes) != 0);
    marked(got, bytes, e->enzyme, (marks){mirror_first(mirror_count(store, length)), 0, 0, 0});
    longest_length();
    minimal_unique();
    if (!found) {
        is_absent(e->site, n, 1);
        return;
    }
    uint64_t row = mirror_row_of(find(e->site, n));
    is_found(e->site, n);
    key("longest", (uint64_t)n << 32, mirror_longest(store, length));
    key("goes", 1 << 8 | row << 16 | (uint64_t)e->site[n - 1] << 32, mirror_remove_right(store, length));
    is_absent(e->site, n, 1);
    key("longest length without it", (uint64_t)(n - 2) << 32, mirror_longest_length(store, length));
    key("comes", 1 << 8 | row << 16, mirror_add_right(store, length, (unsigned char)e->site[n - 1]));
    key("longest length with it", (uint64_t)n << 32, mirror_longest_length(store, length));
    is_found(e->site, n);
}

/* the site alone in a plain record: absent until that is turned, and absent again once it is turned back */
static void in_a_plain_record(const entry *e)
{
    strcpy(letters, e->site);
    at_hand = e;
    record(mirror_open, 0);
    turn_inverted();
    is_found(e->site, strlen(e->site));
    minimal_unique();
    key("turn back", 0, mirror_turn_plain(store, length));
    holds_the_letters();
    every_site(even, EVEN, 0);
}

/* every test on the sites of one table */
static void table(const entry *sites, size_t count, int alike)
{
    for (size_t i = 0; i < count; i++) {
        at_hand = &sites[i];
        key("the table", (uint64_t)alike, (uint64_t)reads_alike(sites[i].site, strlen(sites[i].site)));
        for (int draw = 0; draw < 2 * DRAWS; draw++) between_flanks(&sites[i], draw % 2, draw / 2 % 3 == 2);
        alone(&sites[i], alike);
        if (alike) in_a_plain_record(&sites[i]);
    }
}

int main(void)
{
    random_seed(NULL, 20261117);
    table(even, EVEN, 1);
    table(uneven, UNEVEN, 0);
    if (repeated_lines == 0) return 1; /* no site stood twice */
    printf("%d sites that read alike on both strands are found, %d others absent, %lu repeats are minimal unique, %lu sheets marked: ", (int)EVEN,
           (int)UNEVEN, minimal, sheets);
    printf("%lu answers\n", answers);
    return 0;
}

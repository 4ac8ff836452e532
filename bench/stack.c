/* The stack that each call takes. A call runs on a stack of its own, painted beforehand, and the deepest byte that it
 * changed is looked up afterwards; a call of an empty function is taken off. The records are full ones of 1,024
 * letters in either reading, a letter less for additions, where spelling and finding have the longest palindrome there is,
 * the list the most lines, genbank the longest page and a turn the most letters to set aside. What the list takes beyond length,
 * which is the test and one read, is told too. Ends with 1 if a call takes more than 64 KiB, pieces more than 12, mark more than 10,
 * frequency, occurrences or minimal_unique more than 8, or uncertain more than 4. */
#include <stdio.h>
#include <string.h>
#include <ucontext.h>

#include "../include/mirror.h"
#include "calls.h"
#include "codes.h"
#include "words.h"

enum { STACK = 1 << 20, PAINT = 0xa5 };
enum { LIMIT = 64 * 1024, PIECES_LIMIT = 12 * 1024, MARK_LIMIT = 10 * 1024, COUNTS_LIMIT = 8 * 1024, CODES_LIMIT = 4 * 1024 };

static uint8_t stack[STACK];
static struct sitting s, before;
static ucontext_t here, there;
static uint64_t (*running)(struct sitting *);
static uint64_t answer;

static void on_stack(void) { answer = running(&s); }

/* Bytes of the painted stack that a call changed. */
static size_t depth_of(uint64_t (*call)(struct sitting *))
{
    memset(stack, PAINT, sizeof stack);
    running = call;
    getcontext(&there);
    there.uc_stack.ss_sp = stack;
    there.uc_stack.ss_size = sizeof stack;
    there.uc_link = &here;
    makecontext(&there, on_stack, 0);
    swapcontext(&here, &there);
    size_t untouched = 0;
    while (untouched < sizeof stack && stack[untouched] == PAINT)
        untouched++;
    return sizeof stack - untouched;
}

static uint64_t nothing(struct sitting *unused)
{
    (void)unused;
    return 0;
}

/* Reading a FASTA text of 1,024 letters, which takes no store. */
static uint64_t read_fasta(struct sitting *unused)
{
    static uint8_t text[3 + CAPACITY_MOST] = ">e\n", letters[CAPACITY_MOST];
    (void)unused;
    make_word(RANDOM, text + 3, CAPACITY_MOST);
    return mirror_fasta(text, sizeof text, letters, sizeof letters);
}

/* The two lengths of 1,024 codes, which take no store either; the codes are drawn before. */
static uint8_t codes[CODES_MOST];

static uint64_t tell_uncertain(struct sitting *unused)
{
    (void)unused;
    return mirror_uncertain(codes, sizeof codes);
}

/* What a call takes; 0 where it was refused, which would measure little. */
static size_t taken_by(uint64_t (*call)(struct sitting *))
{
    size_t empty = depth_of(nothing), depth = depth_of(call) - empty;
    return mirror_refusal(answer) == 0 ? depth : 0;
}

/* The same of a call that takes no store; once before, so that the loader has bound what the call needs. */
static size_t taken_without_store(uint64_t (*call)(struct sitting *))
{
    call(&s);
    return taken_by(call);
}

/* The most that a call takes over the words that it works on; 0 where it was refused. */
static size_t most_of(int call, int *word)
{
    size_t most = 0;
    for (int w = 0; w < BOTH_WORDS && works_on(call, word_reading(w)); w++) {
        bool adds = call == CALL_ADD_LEFT || call == CALL_ADD_RIGHT;
        seat(&s, w, word_reading(w), adds ? CAPACITY_MOST - 1 : CAPACITY_MOST, CAPACITY_MOST);
        before = s;
        calls[call].library(&s); /* once, so that the loader has bound what the call needs */
        s = before;
        size_t taken = taken_by(calls[call].library);
        if (taken == 0)
            return 0;
        if (taken > most) {
            most = taken;
            *word = w;
        }
    }
    return most;
}

static size_t limit_of(int call)
{
    if (call == CALL_PIECES)
        return PIECES_LIMIT;
    if (call == CALL_MARK)
        return MARK_LIMIT;
    return is_frequency(call) || call == CALL_OCCURRENCES || call == CALL_MINIMAL_UNIQUE ? COUNTS_LIMIT : LIMIT;
}

/* The line of a call: the most that it takes, and on which word; whether that is too much. */
static bool line(const char *name, size_t most, size_t limit, const char *word, bool inverted)
{
    printf("  %-24s%8zu  %s%s", name, most, word, inverted ? ", inverted" : "");
    if (most == 0)
        printf("  refused!");
    if (most > limit)
        printf("  above %zu KiB!", limit / 1024);
    puts("");
    return most == 0 || most > limit;
}

int main(void)
{
    int bad = 0;
    size_t of_call[CALLS];
    puts("\nStack of each call, bytes, and the word that takes most");
    for (int call = 0; call < CALLS; call++) {
        int word = 0;
        of_call[call] = most_of(call, &word);
        bad += line(calls[call].name, of_call[call], limit_of(call), word_names[word], word_reading(word));
    }
    printf("  %-24s%+8td\n", "list, over length", (ptrdiff_t)of_call[CALL_LIST] - (ptrdiff_t)of_call[CALL_LENGTH]);
    bad += line("fasta", taken_without_store(read_fasta), LIMIT, word_names[RANDOM], false);
    make_codes(CODES_RANDOM, codes);
    bad += line("uncertain", taken_without_store(tell_uncertain), CODES_LIMIT, code_text_names[CODES_RANDOM], false);
    return bad != 0;
}

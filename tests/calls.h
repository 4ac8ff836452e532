/* One call that takes a store, as a value: what is called, with which arguments, and with how long buffers. */
#ifndef CALLS_H
#define CALLS_H
#include "library.h"

/* In the order of library.h, so that a kind is the call's number there: the openings, of which OPEN + reading gives that
 * reading, then, from ADD_LEFT on, what tests its store: first what changes it, the turns last, of which TURN_PLAIN +
 * reading gives that reading, and, from LENGTH on, the questions, of which those from GENBANK to PIECES take a store and an output
 * alone. */
#define CALL_KIND(kind, name) kind,
typedef enum { EACH_OPENING(CALL_KIND) EACH_STORE_CALL(CALL_KIND) CALL_KINDS } call_kind;
/* The numbers of the calls that take no store, which follow. */
enum { LAST_CALL_KIND = CALL_KINDS - 1, EACH_TEXT_CALL(CALL_KIND) };

typedef struct {
    call_kind kind;
    uint64_t number;                    /* the capacity, letter, place or row */
    const unsigned char *text;          /* find's piece, the identifier of list and mark */
    size_t text_length;
    size_t scratch_length, out_length;  /* the buffers that list, spell and the calls from genbank on are lent */
    const unsigned char *sheet;         /* mark's sheet; its mark sheet is the output */
    size_t sheet_length;
} call;

/* The buffers that a call is lent, of the lengths that it says. */
typedef struct {
    uint8_t *text, *scratch, *out, *sheet;
} buffers;

/* Makes the call through a library's table. */
uint64_t call_make(const library *of, uint8_t *store, size_t length, const call *c, const buffers *lent);
/* Whether the call writes to an output, and how many bytes it wrote there by its answer, which is no refusal. */
int call_writes(call_kind kind);
size_t call_wrote(call_kind kind, uint64_t answer);
#endif

#include "calls.h"
#include "layout.h"

uint64_t call_make(const library *of, uint8_t *store, size_t length, const call *c, const buffers *lent)
{
    switch (c->kind) {
    case OPEN: return of->open(store, length, c->number);
    case OPEN_INVERTED: return of->open_inverted(store, length, c->number);
    case ADD_LEFT: return of->add_left(store, length, c->number);
    case ADD_RIGHT: return of->add_right(store, length, c->number);
    case REMOVE_LEFT: return of->remove_left(store, length);
    case REMOVE_RIGHT: return of->remove_right(store, length);
    case TURN_PLAIN: return of->turn_plain(store, length);
    case TURN_INVERTED: return of->turn_inverted(store, length);
    case LENGTH: return of->length(store, length);
    case COUNT: return of->count(store, length);
    case LONGEST: return of->longest(store, length);
    case LONGEST_LENGTH: return of->longest_length(store, length);
    case LONGEST_LEFT: return of->longest_left(store, length);
    case LONGEST_RIGHT: return of->longest_right(store, length);
    case OCCURRENCES: return of->occurrences(store, length);
    case LETTER: return of->letter(store, length, c->number);
    case ROW: return of->row(store, length, c->number);
    case FREQUENCY: return of->frequency(store, length, c->number);
    case SPELL: return of->spell(store, length, c->number, lent->out, c->out_length);
    case FIND: return of->find(store, length, lent->text, c->text_length);
    case GENBANK: return of->genbank(store, length, lent->out, c->out_length);
    case MINIMAL_UNIQUE: return of->minimal_unique(store, length, lent->out, c->out_length);
    case PIECES: return of->pieces(store, length, lent->out, c->out_length);
    case MARK: return of->mark(store, length, lent->text, c->text_length, lent->sheet, c->sheet_length, lent->out, c->out_length);
    default: return of->list(store, length, lent->text, c->text_length, lent->scratch, c->scratch_length, lent->out, c->out_length);
    }
}

int call_writes(call_kind kind)
{
    return kind == SPELL || kind >= LIST;
}

/* the first number is how many bytes there are, or stretches, or pieces; the four counts of a sheet take as many bytes always */
size_t call_wrote(call_kind kind, uint64_t answer)
{
    if (kind == MARK) return MARKS_BYTES;
    size_t each = kind == MINIMAL_UNIQUE ? STRETCH_BYTES : kind == PIECES ? PIECE_BYTES : 1;
    return call_writes(kind) ? each * mirror_first(answer) : 0;
}

/* A question about the record that is followed (followed.h) that writes bytes at the front of a lent output: a page, a list or counts. A
 * test says which call it is and what the record must answer and write now, and asks it with outputs of many sizes and of stores that
 * are not good. Too little room is 9 and leaves every byte; else the bytes stand at the front, and every byte behind them stays. A store
 * that is not good is 3, whatever the room. No byte of a store may change. The output lies at a guard page. */
#ifndef WRITTEN_H
#define WRITTEN_H
#include <stddef.h>
#include <stdint.h>

enum { WRITTEN_MOST = 4096, WRITTEN_ABOUT = 12 };

typedef uint64_t writing(const uint8_t *store, size_t length, uint8_t *out, size_t out_length);

extern struct written {
    writing *call;
    uint64_t answer;             /* where the room is enough, or where it is not looked at: then the need is 0 */
    uint8_t bytes[WRITTEN_MOST]; /* what it writes then */
    size_t need;                 /* how many these are */
    uint8_t *out;                /* lent last */
    unsigned long lent, refused, damaged; /* rooms that were enough, those too small, and those lent with what is not good */
} asked;

/* The record's store now is what it must stay. */
void written_keep(void);
void written_store_stays(void);
/* The call with so many bytes lent, which all hold one of the values that a page or a list may have too, in turn. */
void written_ask(size_t room);
/* Every room from none to WRITTEN_ABOUT bytes more than the need or, where that is many, those about it. */
void written_about(void);
/* These, odd ones, what the header calls always enough, and far more. */
void written_every_room(size_t enough);
/* A letter that is none, a reading that is none, an inner row or a link that is another, a store a byte too short. */
void written_damage(void);
#endif

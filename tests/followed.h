/* One record that a test makes through the library and follows by the arguments of its calls: the letters that it must have now and
 * how it is read. Its store lies at a guard page. A change that is refused ends the test. */
#ifndef FOLLOWED_H
#define FOLLOWED_H
#include <stddef.h>
#include <stdint.h>

enum { FOLLOWED_MOST = 1024, FOLLOWED_SLOT = 0 };

extern struct followed {
    uint8_t *store; /* in the guard's slot FOLLOWED_SLOT */
    size_t length, capacity, size;
    unsigned reading;
    const unsigned char *rule; /* the partners of its reading */
    unsigned char letters[FOLLOWED_MOST];
} record;

/* ends the test with the record and what it is about where the two numbers differ */
void must(const char *what, uint64_t wanted, uint64_t got);
void followed_open(unsigned reading, size_t capacity);
void followed_join(int left, unsigned char letter);
void followed_leave(int left);
void followed_turn(void);
#endif

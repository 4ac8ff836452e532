/* A sitting followed call by call. The model knows the letters and the reading from the calls' arguments alone and the row of
 * each palindrome from the replies alone, and holds both against the program that tries every stretch. While the record is
 * short every call is held against the store's bytes too (oracle.c), and what the store carries of the repeats' lengths is held
 * against those that stand after every change, however long the record; so is how many stand, counted by place, in large stores
 * after each eighth change. The first disagreement ends the program. */
#ifndef MODEL_H
#define MODEL_H
#include "brute.h"
#include <stdint.h>

enum { MODEL_MOST = 1024, MODEL_FALLS = 3 };

/* sittings opened, changes asked for, turns to the other reading among them, and what was compared */
extern unsigned long model_sittings, model_calls, model_turns, model_facts;
/* how many removals lowered the longest repeat's length by 0, 1 and 2, in each reading; no other fall passes */
extern unsigned long model_falls[READINGS][MODEL_FALLS];
/* how often a row whose link has the higher number was asked how often its repeat stands, in each reading */
extern unsigned long model_upward[READINGS];

/* Refused openings, then an accepted one for a record that is read so, in a store of so many bytes more than it needs. */
void model_open(unsigned reading, size_t capacity, size_t extra);
/* An addition at an end; with undo it is taken back at once, and every byte of the store must be as before. */
void model_add(int left, uint64_t letter, int undo);
void model_remove(int left);
/* A turn to a reading. To the other one every repeat that it has comes in, with the row that find answers right after it, and
 * every byte must be that of a record opened so which got the letters at the right; to the one in force every byte stays. */
void model_turn(unsigned reading);
/* Every question with every argument that matters, refused ones among them. */
void model_ask(void);
size_t model_length(void);
unsigned model_reading(void);
#endif

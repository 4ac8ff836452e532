/* A second program that tries every stretch. It shares nothing with the library: no eertree, no links, only loops over
 * all stretches of the letters. A partner rule is a table of 256 bytes. */
#ifndef BRUTE_H
#define BRUTE_H
#include <stddef.h>

typedef struct { size_t start, end; } stretch;

enum { BRUTE_MOST = 1024 };

/* How a record is read, by the numbers of the store's reading cell (docs/LAYOUT.md). */
enum { PLAIN, INVERTED, READINGS };

/* The partner rule of a reading: each byte by itself, or A with T, C with G and every other byte by itself. */
const unsigned char *brute_rule(unsigned reading);

/* The first pair, counted from the outside starting at 1, of which one letter is not the partner of the other, and 0 where
 * there is none. The middle letter of an odd word faces itself and is the last pair. */
size_t brute_mismatch(const unsigned char *rule, const unsigned char *w, size_t n);
/* Whether w, not empty, has no such pair: it equals its reversal with every letter replaced by its partner. */
int brute_palindrome(const unsigned char *rule, const unsigned char *w, size_t n);
/* How many places the piece has in s, and the first of them (n + 1 where there is none). */
size_t brute_places(const unsigned char *p, size_t m, const unsigned char *s, size_t n, size_t *first);
/* The first place of the piece in s, n + 1 where there is none. */
size_t brute_first(const unsigned char *p, size_t m, const unsigned char *s, size_t n);
/* Every palindrome of s once, at its first place, ordered by end. Returns how many; out has room for n. */
size_t brute_list(const unsigned char *rule, const unsigned char *s, size_t n, stretch *out);
/* Every palindrome of s that stands once and whose inner word, without the first and the last letter, is empty or stands at least
 * twice, ordered by start and then by end. Returns how many; out has room for n. */
size_t brute_minimal_unique(const unsigned char *rule, const unsigned char *s, size_t n, stretch *out);
/* The fewest palindromes, each its own reversal, into which s of up to BRUTE_MOST letters can be cut, by the plain recurrence over its
 * left parts; and where each ends, from the left: of all cuttings into so few that whose last piece is the longest, then the one before
 * it, and so on. Returns how many; ends has room for n. */
size_t brute_pieces(const unsigned char *s, size_t n, size_t *ends);
/* The longest palindrome and its leftmost place; 0 at 0 where there is none. */
stretch brute_longest(const unsigned char *rule, const unsigned char *s, size_t n);
/* The length of the longest palindrome at the right and at the left end. */
size_t brute_right(const unsigned char *rule, const unsigned char *s, size_t n);
size_t brute_left(const unsigned char *rule, const unsigned char *s, size_t n);
/* How many palindromes stand at the right and at the left end. */
size_t brute_suffixes(const unsigned char *rule, const unsigned char *s, size_t n);
size_t brute_prefixes(const unsigned char *rule, const unsigned char *s, size_t n);
/* All palindromes of s counted by place, in two ways: each distinct one as often as it stands, and at each right end as many as
 * end there. */
size_t brute_by_words(const unsigned char *rule, const unsigned char *s, size_t n);
size_t brute_by_ends(const unsigned char *rule, const unsigned char *s, size_t n);
/* At each right end the palindromes that end there, longest first, fall into series: in one, each is as much shorter than the one before
 * it as that is than its own, and the last of all is held against the empty word. How many series all right ends have together. */
size_t brute_series(const unsigned char *rule, const unsigned char *s, size_t n);
/* How many are passed before the first that has the partner of c just to its left: the palindromes that end s, longest first,
 * then the empty word, then the imaginary one, which always serves. */
size_t brute_steps(const unsigned char *rule, const unsigned char *s, size_t n, unsigned char c);
/* The length of the longest proper suffix of w that is a palindrome. */
size_t brute_link(const unsigned char *rule, const unsigned char *w, size_t n);
#endif

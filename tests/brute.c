#include "brute.h"
#include <string.h>

const unsigned char *brute_rule(unsigned reading)
{
    static unsigned char rules[READINGS][256];
    if (rules[PLAIN]['A'] == 'A') return rules[reading];
    for (int i = 0; i < 256; i++) rules[PLAIN][i] = rules[INVERTED][i] = (unsigned char)i;
    rules[INVERTED]['A'] = 'T'; rules[INVERTED]['T'] = 'A'; rules[INVERTED]['C'] = 'G'; rules[INVERTED]['G'] = 'C';
    return rules[reading];
}

size_t brute_mismatch(const unsigned char *rule, const unsigned char *w, size_t n)
{
    for (size_t pair = 1; 2 * pair <= n + 1; pair++) {
        unsigned char left = w[pair - 1], right = w[n - pair];
        if (left != rule[right] || right != rule[left]) return pair;
    }
    return 0;
}

int brute_palindrome(const unsigned char *rule, const unsigned char *w, size_t n)
{
    return n > 0 && brute_mismatch(rule, w, n) == 0;
}

size_t brute_places(const unsigned char *p, size_t m, const unsigned char *s, size_t n, size_t *first)
{
    size_t found = 0;
    *first = n + 1;
    for (size_t i = 0; i + m <= n; i++)
        if (memcmp(s + i, p, m) == 0) {
            if (found == 0) *first = i;
            found++;
        }
    return found;
}

size_t brute_first(const unsigned char *p, size_t m, const unsigned char *s, size_t n)
{
    for (size_t i = 0; i + m <= n; i++)
        if (memcmp(s + i, p, m) == 0) return i;
    return n + 1;
}

size_t brute_list(const unsigned char *rule, const unsigned char *s, size_t n, stretch *out)
{
    size_t count = 0;
    for (size_t end = 1; end <= n; end++)
        for (size_t start = 0; start < end; start++) {
            if (!brute_palindrome(rule, s + start, end - start)) continue;
            if (brute_first(s + start, end - start, s, n) != start) continue;
            out[count].start = start;
            out[count].end = end;
            count++;
        }
    return count;
}

size_t brute_minimal_unique(const unsigned char *rule, const unsigned char *s, size_t n, stretch *out)
{
    size_t count = 0, first;
    for (size_t start = 0; start < n; start++)
        for (size_t end = start + 1; end <= n; end++) {
            const unsigned char *w = s + start;
            size_t m = end - start;
            if (!brute_palindrome(rule, w, m) || brute_first(w, m, s, n) != start) continue; /* what stands before is soon found */
            if (brute_places(w, m, s, n, &first) != 1) continue;
            if (m > 2 && brute_places(w + 1, m - 2, s, n, &first) < 2) continue;
            out[count].start = start;
            out[count].end = end;
            count++;
        }
    return count;
}

size_t brute_pieces(const unsigned char *s, size_t n, size_t *ends)
{
    static size_t fewest[BRUTE_MOST + 1], starts[BRUTE_MOST + 1]; /* of the letters up to an end; where the last piece of these begins */
    for (size_t end = 1; end <= n; end++) {
        fewest[end] = n + 1; /* no cutting yet */
        for (size_t start = 0; start < end; start++) {
            if (fewest[start] + 1 >= fewest[end] || !brute_palindrome(brute_rule(PLAIN), s + start, end - start)) continue;
            fewest[end] = fewest[start] + 1;
            starts[end] = start;
        }
    }
    for (size_t end = n, i = fewest[n]; end > 0; end = starts[end]) ends[--i] = end;
    return fewest[n];
}

stretch brute_longest(const unsigned char *rule, const unsigned char *s, size_t n)
{
    stretch best = {0, 0};
    for (size_t start = 0; start < n; start++)
        for (size_t end = start + 1; end <= n; end++)
            if (end - start > best.end - best.start && brute_palindrome(rule, s + start, end - start)) {
                best.start = start;
                best.end = end;
            }
    return best;
}

size_t brute_right(const unsigned char *rule, const unsigned char *s, size_t n)
{
    for (size_t start = 0; start < n; start++)
        if (brute_palindrome(rule, s + start, n - start)) return n - start;
    return 0;
}

size_t brute_left(const unsigned char *rule, const unsigned char *s, size_t n)
{
    for (size_t end = n; end > 0; end--)
        if (brute_palindrome(rule, s, end)) return end;
    return 0;
}

size_t brute_suffixes(const unsigned char *rule, const unsigned char *s, size_t n)
{
    size_t found = 0;
    for (size_t start = 0; start < n; start++) found += (size_t)brute_palindrome(rule, s + start, n - start);
    return found;
}

size_t brute_prefixes(const unsigned char *rule, const unsigned char *s, size_t n)
{
    size_t found = 0;
    for (size_t end = 1; end <= n; end++) found += (size_t)brute_palindrome(rule, s, end);
    return found;
}

size_t brute_by_words(const unsigned char *rule, const unsigned char *s, size_t n)
{
    size_t sum = 0, first;
    for (size_t start = 0; start < n; start++)
        for (size_t end = start + 1; end <= n; end++) {
            const unsigned char *w = s + start;
            if (!brute_palindrome(rule, w, end - start) || brute_first(w, end - start, s, n) != start) continue;
            sum += brute_places(w, end - start, s, n, &first);
        }
    return sum;
}

size_t brute_by_ends(const unsigned char *rule, const unsigned char *s, size_t n)
{
    size_t sum = 0;
    for (size_t end = 1; end <= n; end++) sum += brute_suffixes(rule, s, end);
    return sum;
}

/* the lengths of the palindromes that end s fall to 0; how often the difference of two neighbours is not the one before it */
static size_t series_at_the_end(const unsigned char *rule, const unsigned char *s, size_t n)
{
    size_t found = 0, longer = 0, difference = 0; /* no palindrome yet, so no difference */
    for (size_t start = 0; start <= n; start++) {
        if (start < n && !brute_palindrome(rule, s + start, n - start)) continue;
        size_t falls = longer ? longer - (n - start) : 0;
        found += falls != difference;
        difference = falls;
        longer = n - start;
    }
    return found;
}

size_t brute_series(const unsigned char *rule, const unsigned char *s, size_t n)
{
    size_t sum = 0;
    for (size_t end = 1; end <= n; end++) sum += series_at_the_end(rule, s, end);
    return sum;
}

size_t brute_steps(const unsigned char *rule, const unsigned char *s, size_t n, unsigned char c)
{
    size_t passed = 0;
    for (size_t start = 0; start <= n; start++) {
        if (start < n && !brute_palindrome(rule, s + start, n - start)) continue;
        if (start > 0 && s[start - 1] == rule[c]) return passed;
        passed++;
    }
    return passed;
}

size_t brute_link(const unsigned char *rule, const unsigned char *w, size_t n)
{
    for (size_t start = 1; start < n; start++)
        if (brute_palindrome(rule, w + start, n - start)) return n - start;
    return 0;
}

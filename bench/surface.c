/* Surface recording, algorithms 9 to 12 of the source paper, both ends by one function: places are counted from the
 * end that is worked at. The eertree has direct links, so that no addition walks. Lemma 2.9 is used with the misprint
 * put right: a node's direct links are copied from its link's. */
#include "surface.h"

/* The place of letter i counted from a side. */
static inline unsigned place(const struct surfaces *s, enum side side, unsigned i)
{
    return (side == RIGHT ? s->end - 1 - i : s->start + i) & (PLACES - 1);
}

static inline enum side across(enum side side) { return side == RIGHT ? LEFT : RIGHT; }

void surfaces_open(struct surfaces *s)
{
    memset(s, 0, sizeof *s);
    s->node[IMAGINARY].length = -1;
    s->free = -1;
    s->fresh = 2;
    for (int i = 0; i < PLACES; i++)
        s->surface[LEFT][i] = s->surface[RIGHT][i] = EMPTY;
}

int surfaces_longest(const struct surfaces *s, enum side side)
{
    return s->node[s->surface[side][place(s, side, 0)]].length;
}

static int take_node(struct surfaces *s)
{
    int v = s->free;
    if (v < 0)
        return s->fresh++;
    s->free = s->node[v].link;
    return v;
}

/* The node of the palindrome with letter e on both sides of node u, which stood nowhere; the letter stands already. */
static int grow(struct surfaces *s, enum side side, int u, int e)
{
    int v = take_node(s), link = EMPTY;
    struct node *new = &s->node[v];
    if (u != IMAGINARY)
        link = s->node[s->node[u].direct[e]].next[e];
    *new = (struct node){.length = s->node[u].length + 2, .link = link, .inner = u, .letter = e};
    memcpy(new->direct, s->node[link].direct, sizeof new->direct);
    new->direct[edge_place[s->letter[place(s, side, (unsigned)s->node[link].length)]]] = link;
    s->node[link].links_in++;
    s->node[u].next[e] = v;
    s->stand++;
    return v;
}

static inline bool add(struct surfaces *s, enum side side, uint8_t letter)
{
    int e = edge_place[letter], u = s->start == s->end ? EMPTY : s->surface[side][place(s, side, 0)];
    unsigned n = s->end - s->start, before = (unsigned)s->node[u].length;
    if (n <= before || s->letter[place(s, side, before)] != letter)
        u = s->node[u].direct[e];
    if (side == RIGHT)
        s->end++;
    else
        s->start--;
    s->letter[place(s, side, 0)] = letter;
    int v = s->node[u].next[e];
    bool is_new = v == 0;
    if (is_new)
        v = grow(s, side, u, e);
    int link = s->node[v].link;
    unsigned length = (unsigned)s->node[v].length, shorter = (unsigned)s->node[link].length;
    s->surface[across(side)][place(s, side, 0)] = EMPTY;
    s->surface[across(side)][place(s, side, length - 1)] = v;
    s->surface[side][place(s, side, 0)] = v;
    int *covered = &s->surface[side][place(s, side, length - shorter)];
    if (shorter >= 1 && *covered == link)
        *covered = EMPTY;
    s->node[v].count++;
    return is_new;
}

static inline bool take(struct surfaces *s, enum side side)
{
    int v = s->surface[side][place(s, side, 0)], link = s->node[v].link;
    bool goes = s->node[v].links_in == 0 && s->node[v].count == 1;
    unsigned length = (unsigned)s->node[v].length, shorter = (unsigned)s->node[link].length;
    s->node[v].count--;
    int *covered = &s->surface[side][place(s, side, length - shorter)];
    int *far = &s->surface[across(side)][place(s, side, length - 1)];
    *far = EMPTY;
    if (s->node[*covered].length < (int)shorter)
        *covered = *far = link;
    if (goes) {
        s->node[link].links_in--;
        s->node[s->node[v].inner].next[s->node[v].letter] = 0;
        s->node[v].link = s->free;
        s->free = v;
        s->stand--;
    }
    if (side == RIGHT)
        s->end--;
    else
        s->start++;
    return goes;
}

bool surfaces_add(struct surfaces *s, enum side side, uint8_t letter)
{
    return side == RIGHT ? add(s, RIGHT, letter) : add(s, LEFT, letter);
}

bool surfaces_remove(struct surfaces *s, enum side side) { return side == RIGHT ? take(s, RIGHT) : take(s, LEFT); }

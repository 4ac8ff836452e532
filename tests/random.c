#include "random.h"
#include <stdlib.h>

static uint64_t state = 1;

void random_seed(const char *by_hand, uint64_t otherwise)
{
    state = by_hand ? strtoull(by_hand, NULL, 10) * 2654435761u + 1 : otherwise;
}

unsigned random_below(unsigned below)
{
    state ^= state << 13;
    state ^= state >> 7;
    state ^= state << 17;
    return (unsigned)((state >> 33) % below);
}

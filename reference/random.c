/* random.c: splitmix64. */
#include "random.h"

#include <stdio.h>
#include <stdlib.h>

static uint64_t state;

void random_seed(uint64_t seed)
{
    state = seed;
}

static uint64_t next(void)
{
    uint64_t z;

    state += UINT64_C(0x9E3779B97F4A7C15);
    z = state;
    z = (z ^ (z >> 30)) * UINT64_C(0xBF58476D1CE4E5B9);
    z = (z ^ (z >> 27)) * UINT64_C(0x94D049BB133111EB);
    return z ^ (z >> 31);
}

uint64_t draw(uint64_t count)
{
    return next() % count;
}

int64_t between(int64_t low, int64_t high)
{
    return low + (int64_t)draw((uint64_t)(high - low) + 1);
}

bool chance(int percent)
{
    return draw(100) < (uint64_t)percent;
}

int64_t pick(const int64_t *list, size_t count)
{
    return list[draw(count)];
}

uint64_t seed_argument(int argc, char **argv)
{
    if (argc != 2) {
        fprintf(stderr, "usage: %s SEED\n", argv[0]);
        exit(2);
    }
    return strtoull(argv[1], NULL, 10);
}

/* sources.c: which multipliers the bits of a configuration stand for. */
#include "sources.h"

bool configuration_allowed(int64_t configuration)
{
    return configuration >= 0 && configuration <= 255;
}

/* The codes 00, 01, 10 and 11 mean -1, 0, 1 and 2. */
static int64_t multiplier(int64_t code)
{
    return (code & 3) - 1;
}

/* IA has the lower four bits and IB the upper four; of each four the lower two are for S1 and the upper two for S3. */
struct source source_from(int64_t configuration, int which)
{
    int64_t bits = configuration >> (which == IA ? 0 : 4);
    int64_t m1 = multiplier(bits), m3 = multiplier(bits >> 2);

    return (struct source){m1, m3, m1 != 0 && m3 != 0};
}

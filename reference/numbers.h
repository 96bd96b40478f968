/* numbers.h: the arithmetic that every rule of document 01 leans on: ranges, clipping, rounding down, the root. */
#ifndef NUMBERS_H
#define NUMBERS_H

#include <stdbool.h>
#include <stdint.h>

/* The 24-bit range. */
#define LOWEST INT64_C(-8388608)
#define HIGHEST INT64_C(8388607)

/* C11 leaves the right shift of a negative number to the compiler. Here it must round down, and division toward zero.
 */
_Static_assert((INT64_C(-3) >> 1) == -2 && INT64_C(-3) / 2 == -1, "right shifts must round down");

/* value divided by 2^bits, rounding down. */
static inline int64_t halved_down(int64_t value, int bits)
{
    return value >> bits;
}

/* Shifted up by 2^23, a value of the 24-bit range, and no other, is below 2^24 as an unsigned number. Its ends are not
   outside. */
static inline bool is_outside(int64_t value)
{
    return (uint64_t)(value - LOWEST) > (uint64_t)(HIGHEST - LOWEST);
}

/* To clip is to replace by the nearer end of the 24-bit range. The shift gives -1 for a negative value, whose end is
   the lower one, and 0 for any other: one test serves both ends, and it is the one that is counted. */
static inline int64_t clipped(int64_t value)
{
    return is_outside(value) ? (value >> 63) ^ HIGHEST : value;
}

/* Callers stay far from INT64_MIN: no figure of the module passes 2^58 in size. */
static inline int64_t size_of(int64_t value)
{
    return value < 0 ? -value : value;
}

static inline int64_t at_most(int64_t value, int64_t top)
{
    return value > top ? top : value;
}

static inline int64_t at_least(int64_t value, int64_t bottom)
{
    return value < bottom ? bottom : value;
}

/* The root of a square of 0 to 2^46, rounded down. */
int64_t root_down(int64_t square);

#endif

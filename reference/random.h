/* random.h: the generators' own numbers by chance, the same on every machine for the same seed. */
#ifndef RANDOM_H
#define RANDOM_H

#include <stdbool.h>
#include <stddef.h>
#include <stdint.h>

void random_seed(uint64_t seed);

/* 0 to count - 1. */
uint64_t draw(uint64_t count);

/* low to high, both included; the range is below 2^63. */
int64_t between(int64_t low, int64_t high);

/* True so many times in a hundred. */
bool chance(int percent);

/* One of a list. At most one of its values may itself draw: C leaves their order open, and a seed must give the same
   everywhere. For the same reason no call has two arguments that draw. */
int64_t pick(const int64_t *list, size_t count);

#define PICK(...) pick((const int64_t[]){__VA_ARGS__}, sizeof((const int64_t[]){__VA_ARGS__}) / sizeof(int64_t))

/* The number that argument 1 names, to seed by. */
uint64_t seed_argument(int argc, char **argv);

#endif

/* script-blocks.c: blocks of samples, mostly such that they are accepted and close intervals. */
#include <inttypes.h>
#include <stdio.h>

#include "random.h"
#include "script.h"

enum { TOP = 8388607, BOTTOM = -8388608, LONGEST = 8193, LIMIT = 4096 };

static int64_t sample[SLICES][LONGEST];

/* -TOP .. TOP and back in `period` steps. */
static int64_t triangle(int64_t at, int64_t period, int64_t height)
{
    int64_t part = at % period;
    int64_t half = period / 2;
    int64_t up = part < half ? part : period - part;

    return up * 2 * height / half - height;
}

/* The voltage is whole, the inputs come behind it and have something on top. */
static void fill_wave(size_t count)
{
    int64_t period = between(4, 80);

    for (int which = 0; which < SLICES; which++) {
        int64_t behind = which == V ? 0 : between(0, 79), height = between(0, TOP);

        for (size_t k = 0; k < count; k++)
            sample[which][k] = triangle((int64_t)k + behind, period, height) + (which == V ? 0 : between(-1, 1));
    }
}

static void fill_small_voltage(size_t count)
{
    for (size_t k = 0; k < count; k++)
        sample[V][k] = PICK(4194304, TOP, BOTTOM, -4194304, 8000000, between(BOTTOM, TOP));
}

/* An input of a few units: power taken in, given back, or of either sign. */
static void fill_small_input(int input, size_t count)
{
    int64_t sign = PICK(1, 1, -1, 0), most = between(1, 9);

    for (size_t k = 0; k < count; k++) {
        int64_t i = between(-most, most);

        sample[input][k] = sign != 0 && (sample[V][k] < 0) == (i * sign > 0) ? -i : i;
    }
}

static void fill_small(size_t count)
{
    fill_small_voltage(count);
    fill_small_input(S1, count);
    fill_small_input(S3, count);
}

static void fill_edge(size_t count)
{
    bool steady = chance(40);

    for (int which = 0; which < SLICES; which++) {
        int64_t stays = which == V ? PICK(TOP, BOTTOM, BOTTOM) : PICK(TOP, BOTTOM, BOTTOM, 0);

        for (size_t k = 0; k < count; k++)
            sample[which][k] = steady ? stays : PICK(TOP, BOTTOM, 0, 1, -1, TOP - 1, BOTTOM + 1);
    }
}

static void fill_full_input(int input, size_t count)
{
    int64_t share = between(-8, 8);

    for (size_t k = 0; k < count; k++) {
        int64_t i = chance(50) ? between(BOTTOM, TOP) : sample[V][k] / 8 * share;

        sample[input][k] = i > TOP ? TOP : i;
    }
}

static void fill_full(size_t count)
{
    for (size_t k = 0; k < count; k++)
        sample[V][k] = between(BOTTOM, TOP);
    fill_full_input(S1, count);
    fill_full_input(S3, count);
}

static void fill(enum manner manner, size_t count)
{
    if (manner == SMALL)
        fill_small(count);
    else if (manner == EDGE)
        fill_edge(count);
    else if (manner == WAVE)
        fill_wave(count);
    else
        fill_full(count);
}

/* How many samples: often such that an interval closes, or stays one short, or several close. */
static int64_t good_length(const struct belief *belief)
{
    int64_t left = belief->samples - belief->taken, n = belief->samples, few = between(0, 9);
    int64_t length =
        PICK(left, left, left, left - 1, left + 1, n, 2 * n, 3 * n + 1, left + n + 1, few, between(1, n), 0);

    if (length > belief->budget)
        length = between(0, 4);
    return length > LIMIT ? LIMIT : length;
}

static int64_t odd_length(void)
{
    return PICK(4096, 4096, 4096, 4097, 4097, 5000, 8192, 8193);
}

/* One sample that is too large: beyond 24 bits, or beyond 32. */
static void spoil(size_t count)
{
    int64_t *slice = sample[draw(SLICES)];
    int64_t value = PICK(TOP + 1, BOTTOM - 1, TOP + 1, BOTTOM - 1, TOP + 1, BOTTOM - 1, INT32_MAX, INT32_MIN,
                         (int64_t)INT32_MAX + 1, (int64_t)INT32_MIN - 1, bad_number(0));

    if (count > 0)
        slice[chance(50) ? draw(count) : count - 1] = value;
}

/* Another length for one slice or for two: one less or one more, none, or any. Three of another length are of one. */
static void make_uneven(size_t length[SLICES])
{
    size_t count = length[V], any = (size_t)between(0, (int64_t)count);
    size_t less = count > 0 ? count - 1 : 1, more = count < LONGEST ? count + 1 : less;
    size_t other = (size_t)PICK((int64_t)less, (int64_t)less, (int64_t)more, 0, (int64_t)any);
    size_t first = (size_t)draw(SLICES);

    length[first] = other;
    if (chance(25))
        length[(first + 1) % SLICES] = chance(50) ? other : less;
}

/* A long slice is written in plain decimal alone, so that the line keeps within its length. */
void put_slice(const int64_t *slice, size_t count)
{
    for (size_t k = 0; k < count; k++)
        if (count < 100)
            put_number(slice[k]);
        else
            printf(" %" PRId64, slice[k]);
}

void put_even_block(const int64_t *v, const int64_t *s1, const int64_t *s3, int64_t count)
{
    fputs("block", stdout);
    put_slice(v, (size_t)count);
    fputs(" |", stdout);
    put_slice(s1, (size_t)count);
    fputs(" |", stdout);
    put_slice(s3, (size_t)count);
    put_end();
}

static void believe_taken(struct belief *belief, int64_t count)
{
    if (count == 0 || !(belief->card || belief->waits))
        return;
    belief->card = true;
    belief->waits = false;
    belief->taken += count;
    belief->closed = belief->closed || belief->taken >= belief->samples;
    belief->taken %= belief->samples;
}

/* Bars between the slices: two, or one less or more. */
static void put_slices(const size_t length[SLICES], int bars)
{
    fputs("block", stdout);
    for (int which = 0; which < SLICES; which++) {
        put_slice(sample[which], length[which]);
        if (bars-- > 0)
            fputs(" |", stdout);
    }
    put_end();
}

void put_block(struct belief *belief)
{
    bool odd = chance(1), spoiled = chance(4), uneven = chance(4);
    size_t count = (size_t)(odd ? odd_length() : good_length(belief));
    size_t length[SLICES] = {count, count, count};
    int bars = (int)(chance(97) ? 2 : PICK(0, 1, 1, 1, 3, 3));

    belief->budget -= (int64_t)count;
    if (count > LIMIT)
        fill(SMALL, count);
    else
        fill(chance(85) ? belief->manner : (enum manner)draw(MANNERS), count);
    if (spoiled)
        spoil(count);
    if (uneven)
        make_uneven(length);
    put_slices(length, bars);
    if (!spoiled && !uneven && bars == 2 && count <= LIMIT)
        believe_taken(belief, (int64_t)count);
}

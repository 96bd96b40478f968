/* script-alarm-lines.c: starts with the settings of sag and surge and a configuration, resets, and lines that are
   nearly one of these. */
#include <stdio.h>

#include "numbers.h"
#include "random.h"
#include "script.h"

enum { SAG = 1 << 21, SURGE = 1 << 9, FIRST_EIGHT = 8, STICKY = 11, ITEMS = 13 };

int64_t good_mask(void)
{
    return PICK(0, SAG, SAG, SURGE, SURGE, SAG | SURGE, SAG | SURGE);
}

/* One bit that is none of the two, alone or beside them, a number below 0, or one that has a good mask in its lower
   bits. */
static int64_t bad_mask(void)
{
    int64_t good = good_mask(), other = INT64_C(1) << draw(63), far = PICK(31, 32, 33, 48, 62);

    if (other == SAG || other == SURGE)
        other = 1;
    if (chance(60))
        return PICK(other, good | other, (SAG | SURGE) + other, good + (INT64_C(1) << far), 1);
    return PICK(SURGE * 2, SURGE / 2, SAG * 2, SAG / 2, SAG + 1, SAG - 1, SURGE - 1, -1, -SURGE, -SAG,
                INT64_MIN + SURGE, INT64_MAX, INT64_C(2147483648), INT64_C(4294967808), INT64_MIN);
}

static int64_t bad_half_cycle(int64_t good)
{
    int64_t far = PICK(16, 32, 48, 62);

    return PICK(0, 0, 0, 513, 513, 513, -1, -good, good + (INT64_C(1) << far), 1024, INT64_MAX, INT64_MIN + good);
}

static int64_t bad_level(int64_t good)
{
    int64_t far = PICK(24, 32, 48, 62);

    return PICK(HIGHEST + 1, HIGHEST + 1, HIGHEST + 1, HIGHEST + 1, -1, -1, -1, good + (INT64_C(1) << far), LOWEST,
                INT64_MAX, INT64_MIN + good);
}

/* One of the first eight settings. */
static int64_t bad_early(int which)
{
    if (which == 0)
        return PICK(0, 4097, -1);
    if (which == 1)
        return PICK(0, -1, INT64_C(281474976710656));
    return PICK(0x8F, 0x92, 1, 0x71, -0x2B, 0x81);
}

/* How many items a line must have at least for these settings: those at their lowest may be left out at its end. */
static int fewest_items(const int64_t setting[ITEMS])
{
    int items = ITEMS;

    while (items > FIRST_EIGHT && setting[items - 1] == (items - 1 == FIRST_EIGHT))
        items--;
    return items;
}

static void put_items(const int64_t setting[ITEMS], int items)
{
    fputs("start", stdout);
    for (int k = 0; k < items; k++)
        if (k < 2 || k >= FIRST_EIGHT)
            put_number(setting[k]);
        else
            put_word(setting[k]);
    put_end();
}

static void take_settings(int64_t setting[ITEMS], int64_t n, const struct watch *watch)
{
    setting[0] = n;
    setting[1] = PICK(1, 100, 16777216);
    for (int k = 2; k < FIRST_EIGHT; k++)
        setting[k] = chance(50) ? 0 : good_word();
    setting[8] = watch->half_cycle;
    setting[9] = watch->sag;
    setting[10] = watch->surge;
    setting[STICKY] = watch->sticky;
    setting[ITEMS - 1] = chance(40) ? 0 : good_configuration();
}

void put_watch_start(int64_t n, const struct watch *watch)
{
    int64_t setting[ITEMS];

    take_settings(setting, n, watch);
    put_items(setting, chance(50) ? fewest_items(setting) : (int)between(fewest_items(setting), ITEMS));
}

/* One setting is out of range, mostly a new one, and nothing that stands before it is left out. */
void put_refused_watch_start(int64_t n, const struct watch *watch)
{
    int64_t setting[ITEMS];
    int which = (int)(chance(10) ? between(0, 7) : between(8, 12));

    take_settings(setting, n, watch);
    if (which < FIRST_EIGHT)
        setting[which] = bad_early(which);
    else if (which == FIRST_EIGHT)
        setting[which] = bad_half_cycle(watch->half_cycle);
    else if (which < STICKY)
        setting[which] = bad_level(setting[which]);
    else
        setting[which] = which == STICKY ? bad_mask() : bad_configuration();
    put_items(setting, (int)between(which < FIRST_EIGHT ? FIRST_EIGHT : which + 1, ITEMS));
}

void put_reset(int64_t mask)
{
    fputs("reset", stdout);
    put_number(mask);
    put_end();
}

void put_refused_reset(void)
{
    put_reset(bad_mask());
}

/* Lines about alarms that are no step, and a few that are one hardly. */
static const char *const line[] = {
    "reset",
    "reset ",
    "reset  512",
    "reset 512 ",
    "reset 512 512",
    "reset SAG",
    "reset SURGE",
    "reset sag",
    "reset x",
    "reset -",
    "reset +512",
    "reset 0X200",
    "reset 0x",
    "reset 0x2 00",
    "reset\t512",
    "reset512",
    "Reset 512",
    "RESET 512",
    "resets 512",
    "rese 512",
    " reset 512",
    "reset 512\r",
    "reset \r",
    "reset 9223372036854775808",
    "reset 18446744073709552128",
    "reset 0x8000000000000200",
    "reset | 512",
    "reset 0 PFA",
    "start 2 2 0 0 0 0 0",
    "start 2 2 0 0 0 0 0 0 ",
    "start 2 2 0 0 0 0 0 0  2",
    "start 2 2 0 0 0 0 0 0 2 ",
    "start 2 2 0 0 0 0 0 0 2  3",
    "start 2 2 0 0 0 0 0 0 2 3 ",
    "start 2 2 0 0 0 0 0 0 2 3 4 ",
    "start 2 2 0 0 0 0 0 0 2 3 4 512 ",
    "start 2 2 0 0 0 0 0 0 2 3 4 512 150 ",
    "start 2 2 0 0 0 0 0 0 2 3 4 512 150 0",
    "start 2 2 0 0 0 0 0 0 2 3 4 512 x",
    "start 2 2 0 0 0 0 0 0 2 3 4 512 150 x",
    "start 2 2 0 0 0 0 0 0 0 -1 -1 1 256 0",
    "start 2 2 0 0 0 0 0 0 2 3 4 512 0 0 0",
    "start 2 2 0 0 0 0 0 0 x",
    "start 2 2 0 0 0 0 0 0 2 x",
    "start 2 2 0 0 0 0 0 0 2 3 x",
    "start 2 2 0 0 0 0 0 0 2 3 4 x",
    "start 2 2 0 0 0 0 0 0 2 3 x 512 150 0",
    "start 2 2 0 0 0 0 0 0 513 x",
    "start 0 2 0 0 0 0 0 0 2 3 4 SURGE",
    "start 2 2 0 0 0 0 0 0 VA_RMS",
    "start 2 2 0 0 0 0 0 0 2 PHASE",
    "start 2 2 0 0 0 0 0 0 2 3 4 0x8000000000000000",
    "start 2 2 0 0 0 0 0 0 9223372036854775808",
    "start 2 2 0 0 0 0 0 0 2 -9223372036854775809",
    "start 2 2 0 0 0 0 0 0 2 3 4 -",
    "start 2 2 0 0 0 0 0 0\t2",
    "start 2 2 0 0 0 0 0 0 2,3",
    "start 2 2 0 0 0 0 0 0 | 2",
    "start 2 2 0 0 0 0 0 x 2 3 4 512",
    "start 2 2 0 0 0 0 2 3 4 512",
    "hold 0 SAG",
    "read 0 SAG",
    "read 0 SURGE",
};

void put_odd_watch(void)
{
    fputs(line[draw(sizeof line / sizeof line[0])], stdout);
    put_end();
}

/* script-alarms.c: a passage about sag and surge: sums of squares below, at and above both levels, while blocks,
   intervals and cards end within a window; holds and resets between. */
#include <inttypes.h>
#include <stdio.h>

#include "numbers.h"
#include "random.h"
#include "script.h"

enum { ONE = 2097152, LONGEST = 4096, WIDEST = 512, FEW = 12 };

/* What the next voltages are to be. */
enum aim {
    AT_LEVEL, /* all of the level's size: the sum of W of them is at it exactly */
    NEARLY,   /* the same but for one in the midst, a step or so further or less */
    EXACTLY,  /* of several sizes, such that the sum comes to the level, one below it or one above it */
    LOW,
    HIGH,
    FAR, /* the converter's ends: clipped by most cards */
    ANY,
    AIMS
};

struct side {
    int64_t offset, gain;
};

/* What is believed of the module: to each voltage belongs the card in force for it, and its square stays. */
struct run {
    int64_t n, taken;
    struct watch watch;
    struct side force, waiting;
    bool waits, closed;
    int64_t seen, sum, square[WIDEST];
    enum aim aim;
    int64_t level, target, left; /* of the aim: a threshold, a sum, how many voltages it is still for */
};

/* Gains that differ, so that a square worked again with a later card would be another. */
static struct side any_side(void)
{
    int64_t any = between(ONE / 4, 2 * ONE);
    int64_t gain = PICK(ONE, ONE, ONE, ONE, ONE, ONE / 2, ONE * 2, ONE / 4 * 3, ONE + 1, ONE - 1, any);
    int64_t offset = PICK(0, 0, 0, 1, -1, 7, -1000, 100000, between(-3000000, 3000000));

    return (struct side){offset, gain};
}

static void send_card(struct run *run)
{
    int64_t value[8] = {0, 0, 0, ONE, 0, 0, 0, 0};

    run->waiting = any_side();
    run->waits = true;
    value[0] = run->waiting.offset;
    value[1] = PICK(0, 0, 1000, -1000);
    value[2] = run->waiting.gain;
    value[4] = PICK(0, 0, 2048, 4095);
    put_card(value, (int)draw(2));
}

static int64_t corrected(const struct side *side, int64_t raw)
{
    return clipped(halved_down((raw - side->offset) * side->gain, 21));
}

/* The smallest raw sample that comes to at least this value; with a gain above one it may come to more. */
static int64_t raw_for(const struct side *side, int64_t value)
{
    int64_t product = value * ONE;

    return clipped(side->offset + (product > 0 ? product + side->gain - 1 : product) / side->gain);
}

static int64_t oldest(const struct run *run)
{
    return run->square[run->seen % run->watch.half_cycle];
}

static void believe(struct run *run, int64_t voltage)
{
    run->sum += voltage * voltage - oldest(run);
    run->square[run->seen % run->watch.half_cycle] = voltage * voltage;
    run->seen++;
    run->taken = (run->taken + 1) % run->n;
    run->closed = run->closed || run->taken == 0;
}

/* Mostly for a whole window, so that it is as aimed at its end. */
static void take_aim(struct run *run)
{
    int64_t w = run->watch.half_cycle, few = between(1, 3);
    int64_t level = chance(50) ? run->watch.sag : run->watch.surge;

    if (level == 0)
        level = chance(70) ? run->watch.sag + run->watch.surge : between(0, 9);
    run->level = at_most(level, HIGHEST);
    run->aim = (enum aim)PICK(AT_LEVEL, AT_LEVEL, NEARLY, EXACTLY, EXACTLY, EXACTLY, LOW, HIGH, draw(AIMS));
    run->target = w * run->level * run->level + PICK(0, 0, -1, -1, 1, 1);
    run->left = PICK(w, w, w, w, few, w + few, (w + 1) / 2);
}

/* Far from the end anything below the level; then each as large as the sum leaves room for. That the last of them fill
   it to the last unit is likely from some twelve on. */
static int64_t exact_size(const struct run *run)
{
    int64_t kept = run->sum, w = run->watch.half_cycle;

    if (run->left > FEW)
        return chance(60) ? run->level : (int64_t)draw((uint64_t)run->level + 1);
    for (int64_t k = 0; k < run->left && k < w; k++)
        kept -= run->square[(run->seen + k) % w];
    return kept >= run->target ? 0 : at_most(root_down(run->target - kept), -LOWEST);
}

static int64_t next_size(const struct run *run)
{
    int64_t level = run->level, above = PICK(1, 2, level, level / 8, 3);

    switch (run->aim) {
    case AT_LEVEL:
        return level;
    case NEARLY:
        return run->left == 1 ? level + PICK(-1, 1, -2, 2, -level, level) : level;
    case EXACTLY:
        return exact_size(run);
    case LOW:
        return chance(30) ? 0 : (int64_t)draw((uint64_t)level + 1);
    case HIGH:
        return level + above;
    case FAR:
        return PICK(HIGHEST, -LOWEST);
    default:
        return between(0, HIGHEST);
    }
}

/* The lowest value has a size that none above 0 has. */
static int64_t with_sign(int64_t size)
{
    return chance(size > HIGHEST ? 80 : 40) ? -size : size;
}

static int64_t next_voltage(struct run *run)
{
    int64_t size, raw;

    if (run->taken == 0 && run->waits) {
        run->force = run->waiting;
        run->waits = false;
    }
    if (run->left <= 0)
        take_aim(run);
    size = next_size(run);
    size = size < 0 ? 0 : size;
    raw = run->aim == FAR ? PICK(HIGHEST, HIGHEST, LOWEST) : raw_for(&run->force, with_sign(size));
    run->left--;
    believe(run, corrected(&run->force, raw));
    return raw;
}

/* The currents are nothing, something, or the voltages themselves: they have no part in the alarms. */
static void put_samples(struct run *run, int64_t count)
{
    static int64_t sample[SLICES][LONGEST];
    int64_t most = PICK(0, 0, 9, HIGHEST);
    int same = (int)PICK(V, V, V, V, S1, S3); /* this one has the voltages themselves */

    for (int64_t k = 0; k < count; k++) {
        sample[V][k] = next_voltage(run);
        for (int input = S1; input <= S3; input++)
            sample[input][k] = same == input ? sample[V][k] : between(-most, most);
    }
    put_even_block(sample[V], sample[S1], sample[S3], count);
}

/* Often such that the window is as aimed at the block's end, or W samples were seen, or one less; or an interval ends.
 */
static int64_t any_count(const struct run *run)
{
    int64_t w = run->watch.half_cycle, left = run->n - run->taken, aimed = run->left > 0 ? run->left : w;
    int64_t count =
        PICK(aimed, aimed, aimed, aimed, aimed, aimed - 1, aimed + 1, 1, 1, 2, left, left - 1, (aimed + 1) / 2);

    if (run->seen < w && chance(60))
        count = w - run->seen - PICK(0, 0, 1, 1, -1, (w - run->seen) / 2);
    return at_most(count, LONGEST);
}

static void put_hold(int port)
{
    put_step("hold", port);
    put_end();
}

/* Around one size, which small windows and large ones can meet; the levels may be equal, or the sag's the higher. */
static struct watch any_watch(int64_t half_cycle)
{
    int64_t few = between(2, 12), more = between(13, 5000), large = between(HIGHEST / 8, HIGHEST / 4 * 3);
    int64_t any = PICK(few, few, few, more, more, large, large, HIGHEST, HIGHEST, HIGHEST - 1, 1);
    int64_t size = half_cycle == 4 && chance(50) ? -LOWEST / 2 : any; /* four of these are one of the lowest value */
    int64_t sag = PICK(0, 1, size, size, size, size, size, size - 1, HIGHEST);
    int64_t surge = PICK(0, 0, 1, size, size, size, size + 1, size + size / 4, size * 2, size - 1, HIGHEST);
    int64_t kept = chance(15) ? between(0, 3) : 4; /* the others are at their lowest */
    int64_t sticky = good_mask();

    return (struct watch){kept < 1 ? 1 : half_cycle, kept < 2 ? 0 : at_most(sag, HIGHEST),
                          kept < 3 ? 0 : at_most(surge, HIGHEST), kept < 4 ? 0 : sticky};
}

/* With settings of its own: none of them may reach the module. */
static void put_refused_start(void)
{
    int64_t n = PICK(1, 2, 3, 40, 4096), half_cycle = PICK(1, 2, 3, 40, 512);
    struct watch watch = any_watch(half_cycle);

    put_refused_watch_start(n, &watch);
}

/* Whatever is refused or empty leaves the window and both alarms as they are. */
static void put_nothing(void)
{
    static const char *const nothing[] = {"block 8388608 | 0 | 0",
                                          "block 0 | -8388609 | 0",
                                          "block 0 | 0 | 8388608",
                                          "block 0 | 0 |",
                                          "block | |",
                                          "block | |",
                                          "hold 2",
                                          "read 0 VA_RMS",
                                          "read 1 VA_RMS",
                                          "cards"};
    uint64_t what = draw(10);

    if (what < 3) {
        put_refused_reset();
    } else if (what < 5) {
        put_refused_start();
    } else if (what < 6) {
        put_odd_watch();
    } else {
        fputs(nothing[draw(sizeof nothing / sizeof nothing[0])], stdout);
        put_end();
    }
}

/* A hold, and one behind a reset of one alarm or both, or behind nothing. */
static void put_holds(const struct run *run)
{
    int port = (int)draw(2);

    if (!run->closed && chance(90))
        return;
    if (chance(85))
        put_hold(port);
    if (chance(30)) {
        put_reset(good_mask());
        if (chance(40))
            put_nothing();
        put_hold(chance(50) ? port : 1 - port);
    }
    if (chance(25)) {
        put_nothing();
        put_hold(1 - port);
    }
}

static void put_blocks(struct run *run, int64_t blocks)
{
    for (; blocks > 0; blocks--) {
        int64_t count = any_count(run);

        put_samples(run, count < 0 ? 0 : count);
        if (chance(12))
            put_reset(good_mask());
        if (chance(85))
            put_holds(run);
        if (chance(18))
            send_card(run);
    }
}

static void put_run(struct run *run, int64_t blocks)
{
    put_watch_start(run->n, &run->watch);
    if (chance(20))
        put_reset(good_mask());
    send_card(run);
    if (chance(60))
        put_refused_start();
    put_blocks(run, blocks);
}

/* One window behind another, each as aimed at its end, in one block or two; then a few samples more. */
static void put_windows(struct run *run, int64_t windows)
{
    for (; windows > 0; windows--) {
        int64_t w = run->watch.half_cycle, first = chance(60) ? w : between(1, w);

        take_aim(run);
        run->left = w;
        put_samples(run, first);
        if (first < w)
            put_samples(run, w - first);
        put_holds(run);
        put_samples(run, between(0, 2));
        put_holds(run);
    }
}

/* A window of some hundred samples; intervals of one sample and of thousands; in some runs more than 4,096 samples. */
static void put_wide_run(void)
{
    int64_t w = PICK(511, 512, 512, 512, between(100, 510)), n = PICK(1, 1, 1, 2, 3, 100, 400, 512, LONGEST);
    struct run run = {.n = n, .watch = any_watch(w)};

    put_run(&run, between(2, 4));
    if (n == LONGEST || chance(20))
        put_samples(&run, LONGEST);
    put_windows(&run, between(2, 3));
}

/* A window of a few samples that a block fills again and again. */
static void put_wrapped_run(void)
{
    int64_t w = PICK(1, 2, 3, 3, 3, 5), n = PICK(1, 4, 7, 100, 4096);
    struct run run = {.n = n, .watch = any_watch(w)};

    put_run(&run, 3);
    for (int64_t blocks = between(1, 2); blocks > 0; blocks--) {
        put_samples(&run, between(300, 900));
        put_hold((int)draw(2));
        put_holds(&run);
    }
}

void put_alarms(void)
{
    for (int64_t runs = between(2, 4); runs > 0; runs--) {
        int64_t few = between(2, 6), w = PICK(1, 1, 2, 2, 3, 4, few, few, 12, 13, 20, 40, 40);
        int64_t n = PICK(1, 1, 1, 2, 2, 3, 4, 5, 8, 40);
        struct run run = {.n = n, .watch = any_watch(w)};

        put_run(&run, between(10, 16));
        if (chance(40))
            put_odd_watch();
    }
    if (chance(40))
        put_wide_run();
    if (chance(25))
        put_wrapped_run();
}

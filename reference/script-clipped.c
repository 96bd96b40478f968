/* script-clipped.c: a passage about clipped samples: values before clipping at the ends of the 24-bit range, one step
   beyond them and far beyond, with holds at both ports while other intervals run. */
#include <inttypes.h>
#include <stdio.h>

#include "numbers.h"
#include "random.h"
#include "script.h"

enum { ONE = 2097152, LONGEST = 4096 };

/* How many of an interval's samples of a slice are meant to be clipped. */
enum share { NEVER, SOMETIMES, ALWAYS, SHARES };

struct side {
    int64_t offset, gain;
};

struct probe {
    struct side voltage, current;
    int64_t phase, squelch;
};

/* What is believed of the module: to each sample belongs the card that is in force for it. */
struct run {
    int64_t n, taken;
    struct probe force, waiting;
    bool waits, closed, all;  /* all: every sample is to be clipped */
    enum share share[SLICES]; /* of the running interval */
};

/* Offset or gain alone can bring samples out of the range, or both together, or neither. */
static struct side any_side(void)
{
    int64_t gain =
        PICK(ONE, ONE, ONE, ONE + 1, ONE - 1, ONE / 4 * 5, ONE / 2 * 3, ONE * 2, HIGHEST, between(ONE / 2, ONE * 2));
    int64_t offset = PICK(0, 0, 0, 1, -1, 2, -2, 1000, -1000, HIGHEST, LOWEST, between(LOWEST, HIGHEST));

    return (struct side){offset, gain};
}

static struct probe any_probe(void)
{
    struct probe probe = {.voltage = any_side()};

    probe.current = any_side();
    probe.phase = PICK(0, 0, 0, 1, 2048, 2048, 4095, between(0, 4095));
    probe.squelch = PICK(0, 0, 0, HIGHEST);
    return probe;
}

static void put_probe(const struct probe *probe, int port)
{
    const int64_t value[8] = {probe->voltage.offset, probe->current.offset,
                              probe->voltage.gain,   probe->current.gain,
                              probe->phase,          0,
                              probe->squelch,        0};

    put_card(value, port);
}

/* The raw sample nearest to the offset that is clipped at this end. It may be one that no block can have. */
static int64_t first_clipped(const struct side *side, bool upper)
{
    const int64_t end = INT64_C(1) << 44; /* 2^23 times 2^21 */

    return side->offset + (upper ? (end + side->gain - 1) / side->gain : -(end / side->gain) - 1);
}

/* Around the end that this side can reach, mostly at it; the converter's own end where it can reach none. */
static int64_t any_raw(const struct side *side, bool is_clipped)
{
    bool upper = chance(50) ? first_clipped(side, true) <= HIGHEST : first_clipped(side, false) < LOWEST;
    int64_t edge = clipped(first_clipped(side, upper)), out = upper ? 1 : -1;
    int64_t far = upper ? HIGHEST : LOWEST, any = between(LOWEST, HIGHEST);

    if (is_clipped)
        return clipped(PICK(edge, edge, edge, edge + out, edge + 2 * out, far, far));
    return clipped(PICK(edge - out, edge - out, edge - out, edge - 2 * out, edge - 3 * out, 0, 1, -1, any));
}

static bool is_meant(enum share share)
{
    return share == ALWAYS || (share == SOMETIMES && chance(50));
}

static void begin_interval(struct run *run)
{
    if (run->waits)
        run->force = run->waiting;
    run->waits = false;
    for (int which = 0; which < SLICES; which++)
        run->share[which] = run->all ? ALWAYS : (enum share)draw(SHARES);
}

static void put_samples(struct run *run, int64_t count)
{
    static int64_t sample[SLICES][LONGEST];

    for (int64_t k = 0; k < count; k++) {
        if (run->taken == 0)
            begin_interval(run);
        for (int which = 0; which < SLICES; which++)
            sample[which][k] =
                any_raw(which == V ? &run->force.voltage : &run->force.current, is_meant(run->share[which]));
        run->taken = (run->taken + 1) % run->n;
        run->closed = run->closed || run->taken == 0;
    }
    put_even_block(sample[V], sample[S1], sample[S3], count);
}

/* Often such that an interval closes and another runs. */
static int64_t any_count(const struct run *run)
{
    int64_t left = run->n - run->taken, more = between(1, run->n);

    return at_most(PICK(left, left, left, left - 1, left + 1, left + run->n, left + more, left + more, 1, 0), LONGEST);
}

static void put_hold(int port)
{
    put_step("hold", port);
    put_end();
}

static void put_reads(int port)
{
    for (int64_t reads = between(1, 3); reads > 0; reads--) {
        put_step("read", port);
        put_address(register_address((int)draw(REGISTERS)));
        put_end();
    }
}

/* A hold, now and then at both ports, or again behind some reads: the counts must be those of the closed interval. */
static void put_holds(const struct run *run)
{
    int port = (int)draw(2);

    if (!run->closed && chance(80))
        return;
    put_hold(port);
    if (chance(40))
        put_reads(port);
    if (chance(30))
        put_hold(port);
    if (chance(30))
        put_hold(1 - port);
}

/* A waiting card is mostly sent while an interval runs. */
static void send_card(struct run *run)
{
    run->waiting = any_probe();
    run->waits = true;
    put_probe(&run->waiting, (int)draw(2));
}

/* Whatever is refused or empty leaves every count as it is. */
static void put_nothing(void)
{
    static const char *const nothing[] = {"block 8388608 | 0 | 0",
                                          "block 0 | -8388609 | 0",
                                          "block 0 | 0 | 8388608",
                                          "block 0 | 0 |",
                                          "block | |",
                                          "start 0 1 0 0 0 0 0 0",
                                          "hold 2",
                                          "commit 1",
                                          "drop 0"};

    fputs(nothing[draw(sizeof nothing / sizeof nothing[0])], stdout);
    put_end();
}

static void put_start(int64_t n)
{
    printf("start %" PRId64, n);
    put_number(PICK(1, 100, 16777216));
    fputs(" VA_RMS IA_RMS IA_PEAK WATT_A 0 0", stdout);
    put_configuration(good_configuration());
    put_end();
}

static void put_run(int64_t n, int64_t blocks)
{
    struct run run = {.n = n};

    put_start(n);
    send_card(&run);
    for (; blocks > 0; blocks--) {
        put_samples(&run, any_count(&run));
        if (chance(30))
            send_card(&run);
        if (chance(15))
            put_nothing();
        put_holds(&run);
    }
}

/* Counts beyond a byte. */
static void put_long_run(void)
{
    int64_t n = PICK(256, 257, 300, 300, 4096);

    put_run(n, n == 4096 ? 2 : 4);
}

/* The greatest counts there are: at gain two one end or the other can be reached, whatever the offset. */
static void put_full_run(void)
{
    struct run run = {.n = LONGEST, .waiting = any_probe(), .waits = true, .all = true};
    int port = (int)draw(2);

    run.waiting.voltage.gain = run.waiting.current.gain = 2 * ONE;
    put_start(LONGEST);
    put_probe(&run.waiting, port);
    put_samples(&run, LONGEST);
    put_hold(port);
    put_samples(&run, between(1, 9));
    put_hold(1 - port);
}

void put_clipped(void)
{
    int64_t few = PICK(1, 1, 2, 2, 3, 4, 5, 8), other = PICK(1, 2, 3, 4, 6);

    put_run(few, between(6, 14));
    if (chance(15))
        put_long_run();
    if (chance(6))
        put_full_run();
    if (chance(50))
        put_run(other, between(4, 10));
}

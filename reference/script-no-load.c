/* script-no-load.c: a passage about SQUELCH: power of either sign while the root of a source is just below it, at it or
   just above it, or is 0, and that of the other source is like it or another. */
#include <inttypes.h>
#include <stdio.h>

#include "numbers.h"
#include "random.h"
#include "script.h"

enum { ONE = 2097152, MOST_SAMPLES = 10 };

/* What a probe sees, and a card made for it. Currents of one size give a root that is known beforehand. */
struct probe {
    int64_t size, irmsoffs, squelch, poffs;
    bool gives_back;              /* P is below 0 */
    int64_t other;                /* the size at the other input */
    bool other_gives_back, at_s3; /* at_s3: the card is made for S3, and the other input is S1 */
};

/* At full voltage a current of 2 is the smallest that has power. */
static struct probe any_probe(bool gives_back)
{
    int64_t few = between(2, 60), size = PICK(few, few, few, few, 5, 100, HIGHEST, between(61, HIGHEST));
    int64_t irmsoffs = at_most(PICK(0, 0, 0, size - 1, size, size + 1, between(0, size)), HIGHEST);
    int64_t root = irmsoffs > size ? 0 : root_down(size * size - irmsoffs * irmsoffs);
    int64_t squelch = PICK(root - 1, root - 1, root, root, root + 1, root + 1, 0, 0, 1, between(0, HIGHEST));
    int64_t poffs = PICK(0, 0, 0, 0, 0, 1, 2, size);

    int64_t other = at_most(PICK(size, size + 1, size - 1, size - 1, size * 2, size / 2, 0, between(0, 60)), HIGHEST);
    struct probe probe = {size,  irmsoffs, at_most(squelch < 0 ? 0 : squelch, HIGHEST), poffs, gives_back, other,
                          false, false};

    if (chance(20))
        probe.gives_back = !gives_back;
    probe.other_gives_back = chance(50);
    probe.at_s3 = chance(40);
    return probe;
}

/* Slots for what a squelched interval shows as 0, and for the two that it leaves. */
static void put_tracking_start(int64_t n)
{
    static const char *const name[] = {"WATT_A", "VA_A", "PFA", "IA_CREST", "IA_RMS", "IA_PEAK", "VA_RMS"};
    uint64_t first = draw(7);

    printf("start %" PRId64, n);
    put_number(PICK(1, 1, 1, 2, 3, 100, between(1, 100000)));
    for (uint64_t k = 0; k < 6; k++)
        printf(" %s", name[(first + k) % 7]);
    put_configuration(PICK(0x96, 0x96, 0x96, 0x96, 0x96, 0x69, 0x16, 0x94, good_configuration()));
    put_end();
}

static void put_probe(const struct probe *probe, int port)
{
    const int64_t value[8] = {0, 0, ONE, ONE, 0, probe->irmsoffs, probe->squelch, probe->poffs};

    put_card(value, port);
}

static void put_samples(const struct probe *probe, int64_t count)
{
    int64_t voltage[MOST_SAMPLES], current[MOST_SAMPLES], other[MOST_SAMPLES];

    for (int64_t k = 0; k < count; k++) {
        voltage[k] = PICK(HIGHEST, HIGHEST, LOWEST, -HIGHEST);
        current[k] = (voltage[k] < 0) == probe->gives_back ? probe->size : -probe->size;
        other[k] = (voltage[k] < 0) == probe->other_gives_back ? probe->other : -probe->other;
    }
    if (probe->at_s3)
        put_even_block(voltage, other, current, count);
    else
        put_even_block(voltage, current, other, count);
}

/* One or two intervals of this probe; the next one's card is there behind them, or before the last sample. */
static void put_intervals(const struct probe *probe, const struct probe *next, int64_t n)
{
    int64_t count = n * PICK(1, 1, 1, 2);
    int port = (int)draw(2);
    bool early = chance(30);

    put_samples(probe, early ? count - 1 : count);
    put_probe(next, port);
    if (early)
        put_samples(probe, 1);
}

void put_no_load(struct belief *belief)
{
    int64_t n = PICK(1, 1, 2, 2, 3, 4, 5);
    bool gives_back = chance(50);
    struct probe probe = any_probe(gives_back);

    put_tracking_start(n);
    *belief = (struct belief){.manner = SMALL, .samples = n, .budget = belief->budget};
    put_probe(&probe, (int)draw(2));
    belief->card = belief->closed = true;
    for (int64_t rounds = between(3, 6); rounds > 0; rounds--) {
        struct probe next = any_probe(gives_back);

        put_intervals(&probe, &next, n);
        whole_reading(belief, (int)draw(2));
        probe = next;
    }
}

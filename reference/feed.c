/* feed.c: the block step: its checks, and its samples one after another into intervals. */
#include "module.h"
#include "numbers.h"

/* Shifted up by 2^23, a sample of the 24-bit range has no bit above the lowest 24. */
static bool in_range(const struct slice *slice)
{
    uint32_t bits = 0;

    for (size_t k = 0; k < slice->count; k++)
        bits |= (uint32_t)slice->sample[k] + 8388608u;
    return bits < 16777216u;
}

/* A corrected sample, and whether it lay outside the 24-bit range before clipping (document 02, A2). */
struct corrected {
    int64_t value;
    bool outside;
};

/* |raw - offset| < 2^24 and gain < 2^23: the product is below 2^47. */
static inline struct corrected corrected(int64_t raw, int64_t offset, int64_t gain)
{
    int64_t far = halved_down((raw - offset) * gain, 21);

    return (struct corrected){clipped(far), is_outside(far)};
}

/* ((4,096 - PHASE) times now + PHASE times before) / 4,096, rounding down: 4,096 times now comes out of the division
   whole, and one product is left, below 2^36 in size. A mix of two values of the 24-bit range stays within it. */
static inline int64_t mixed(int64_t phase, int64_t now, int64_t before)
{
    return now + halved_down(phase * (before - now), 12);
}

/* Samples of one interval, as they are once corrected and, of S1 and S3, mixed by PHASE. */
struct stretch {
    int32_t value[SLICES][BLOCK_MOST];
};

/* A stretch of voltages; their squares are put down for the alarms too. */
static void take_voltage(struct interval *interval, const struct card *card, const int32_t *raw, size_t count,
                         int32_t *value, int64_t *square)
{
    const int64_t voffs = card->field[VOFFS], vgain = card->field[VGAIN];
    int64_t squares = 0, outside = 0;

    for (size_t k = 0; k < count; k++) {
        struct corrected volts = corrected(raw[k], voffs, vgain);
        int64_t v = volts.value;

        value[k] = (int32_t)v;
        outside += volts.outside;
        square[k] = v * v;
        squares += v * v;
    }
    interval->voltage_squares += squares;
    interval->clipped.of[V] += outside;
}

/* A stretch of an input, S1 or S3; says how many were clipped. `before` is the raw sample of this input that came
   before them: it is corrected for PHASE alone and not counted. */
static int64_t take_input(const struct card *card, int64_t before, const int32_t *raw, size_t count, int32_t *value)
{
    const int64_t ioffs = card->field[IOFFS], igain = card->field[IGAIN], phase = card->field[PHASE];
    int64_t last = corrected(before, ioffs, igain).value, outside = 0;

    for (size_t k = 0; k < count; k++) {
        struct corrected amps = corrected(raw[k], ioffs, igain);

        value[k] = (int32_t)mixed(phase, amps.value, last);
        last = amps.value;
        outside += amps.outside;
    }
    return outside;
}

/* A stretch of a source, IA or IB, made of the inputs and joined to its sums. The peak is found from the least and the
   greatest value: quicker than the size of each. */
static void take_source(struct sums *sums, const struct source *source, const struct stretch *stretch, size_t count)
{
    const struct source by = *source;
    int64_t squares = 0, products = 0, least = 0, greatest = 0;

    for (size_t k = 0; k < count; k++) {
        int64_t i = source_value(&by, stretch->value[S1][k], stretch->value[S3][k]);

        squares += i * i;
        products += stretch->value[V][k] * i;
        least = i < least ? i : least;
        greatest = i > greatest ? i : greatest;
    }
    sums->squares += squares;
    sums->products += products;
    sums->peak = at_least(sums->peak, at_least(greatest, -least));
}

/* Samples of one interval, so of one card. A loop for each slice and each source, since one loop for all has more
   values at hand than the machine has registers. */
static void accumulate(struct interval *interval, const struct card *card, const struct source source[SOURCES],
                       const int64_t before[SLICES], const int32_t *const raw[SLICES], size_t count, int64_t *square)
{
    struct stretch stretch;

    take_voltage(interval, card, raw[V], count, stretch.value[V], square);
    for (int input = S1; input <= S3; input++)
        interval->clipped.of[input] += take_input(card, before[input], raw[input], count, stretch.value[input]);
    for (int which = 0; which < SOURCES; which++)
        take_source(&interval->source[which], &source[which], &stretch, count);
    interval->samples += (int64_t)count;
}

/* A waiting card comes into force at an interval's first sample. */
static void take_waiting_card(struct module *module)
{
    if (module->interval.samples == 0 && module->card_waits) {
        module->card = module->waiting;
        module->has_card = true;
        module->card_waits = false;
    }
}

/* The raw samples that come before the next ones, of each input. */
static void keep_previous(struct module *module, const int32_t *const raw[SLICES], size_t k)
{
    for (int input = S1; input <= S3; input++)
        module->previous[input] = raw[input][k];
}

/* Takes what the running interval still wants, or fewer if there are fewer. Says how many it took. */
static size_t take_part(struct module *module, const int32_t *const raw[SLICES], size_t left)
{
    size_t wanted = (size_t)(module->samples - module->interval.samples);
    size_t count = left < wanted ? left : wanted;
    int64_t *square = alarms_room(&module->alarms, count);

    take_waiting_card(module);
    if (!module->has_previous) {
        keep_previous(module, raw, 0);
        module->has_previous = true;
    }
    accumulate(&module->interval, &module->card, module->source, module->previous, raw, count, square);
    alarms_follow(&module->alarms, count);
    keep_previous(module, raw, count - 1);
    if (module->interval.samples == module->samples)
        interval_close(module);
    return count;
}

int module_block(struct module *module, const struct slice slice[SLICES])
{
    size_t count = slice[V].count, done = 0;

    if (slice[S1].count != count || slice[S3].count != count || count > BLOCK_MOST)
        return 5;
    if (!in_range(&slice[V]) || !in_range(&slice[S1]) || !in_range(&slice[S3]))
        return 6;
    if (!module->has_card && !module->card_waits)
        return 18;
    while (done < count) {
        const int32_t *const raw[SLICES] = {slice[V].sample + done, slice[S1].sample + done, slice[S3].sample + done};

        done += take_part(module, raw, count - done);
    }
    return 0;
}

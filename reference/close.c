/* close.c: what an interval comes to when it closes: registers, energy, minima and maxima, counts of clipped samples,
   number. */
#include <string.h>

#include "module.h"
#include "numbers.h"

enum { WHOLE_COUNT = 16777216, UNITY_FACTOR = 4194304 };

static int64_t voltage_rms(const struct module *module)
{
    return at_most(root_down(module->interval.voltage_squares / module->samples), HIGHEST);
}

/* What SQUELCH is held against: a source's root with IRMSOFFS taken off. */
static int64_t current_root(const struct module *module, const struct sums *sums)
{
    const int64_t *field = module->card.field;
    int64_t square = sums->squares / module->samples - field[IRMSOFFS] * field[IRMSOFFS];

    return at_most(root_down(square < 0 ? 0 : square), HIGHEST);
}

/* C divides toward zero. N times 2^23 is at most 2^35. */
static int64_t active_power(const struct module *module, const struct sums *sums)
{
    int64_t power = clipped(sums->products / (module->samples * 8388608));
    int64_t size = size_of(power) - module->card.field[POFFS];

    if (size <= 0)
        return 0;
    return power < 0 ? -size : size;
}

/* |P| times 2^22 is at most 2^45. */
static int64_t power_factor(int64_t active, int64_t apparent)
{
    int64_t factor;

    if (apparent == 0)
        return 0;
    factor = active * UNITY_FACTOR / apparent;
    return factor < -UNITY_FACTOR ? -UNITY_FACTOR : at_most(factor, UNITY_FACTOR);
}

static int64_t crest(int64_t peak, int64_t rms)
{
    return rms == 0 ? 0 : at_most(peak * 65536 / rms, HIGHEST);
}

/* `joining` is at most 2^35 and the remainder below 2^48. */
static void energy_advance(struct energy *energy, int64_t joining, int64_t bucket)
{
    int64_t total = energy->remainder + joining;

    energy->count = (energy->count + total / bucket) % WHOLE_COUNT;
    energy->remainder = total % bucket;
}

static void count_energy(const struct module *module, struct energies *energies, int64_t power)
{
    struct energy *energy = power < 0 ? &energies->negative : &energies->positive;

    if (power != 0)
        energy_advance(energy, size_of(power) * module->samples, module->bucket);
}

/* A source that is squelched has no current and no power, and so no energy (document 02, A1). The root decides and not
   its RMS: a root of 0 is not below a SQUELCH of 0, and then P stays. */
static void work_source(const struct module *module, const struct sums *sums, int64_t volts, struct energies *energies,
                        int64_t shown[RESULTS])
{
    int64_t root = current_root(module, sums);
    bool squelched = root < module->card.field[SQUELCH];

    shown[RMS] = squelched ? 0 : root;
    shown[PEAK] = at_most(sums->peak, HIGHEST);
    shown[WATT] = squelched ? 0 : active_power(module, sums);
    shown[VA] = volts * shown[RMS] / 8388608;
    shown[PF] = power_factor(shown[WATT], shown[VA]);
    shown[CREST] = crest(shown[PEAK], shown[RMS]);
    count_energy(module, energies, shown[WATT]);
    shown[POS_CNT] = energies->positive.count;
    shown[NEG_CNT] = energies->negative.count;
}

/* The voltage is the board's one; each source is worked by itself (document 02, A5). */
static void work_registers(struct module *module, int64_t plain[PLAIN])
{
    plain[VA_RMS] = voltage_rms(module);
    for (int which = 0; which < SOURCES; which++)
        work_source(module, &module->interval.source[which], plain[VA_RMS], &module->energies[which],
                    plain + OF_IA + which * RESULTS);
}

/* Minima and maxima start at the first closed interval's value and then follow. */
static void track(struct registers *registers, const int slot[SLOTS], bool first)
{
    for (size_t k = 0; k < SLOTS; k++) {
        int64_t value;

        if (slot[k] == OFF)
            continue;
        value = registers->plain[slot[k]];
        if (first || value < registers->low[k])
            registers->low[k] = value;
        if (first || value > registers->high[k])
            registers->high[k] = value;
    }
}

void interval_close(struct module *module)
{
    work_registers(module, module->closed.registers.plain);
    track(&module->closed.registers, module->slot, !module->some_closed);
    module->closed.serial = module->card.serial;
    module->closed.clipped = module->interval.clipped;
    module->closed.number++; /* unsigned 32 bits: after 4,294,967,295 comes 0 */
    module->some_closed = true;
    memset(&module->interval, 0, sizeof module->interval);
}

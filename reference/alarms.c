/* alarms.c: follows the sum of the last W squared voltages, and sets both alarms by it. */
#include "alarms.h"

#include <string.h>

#include "numbers.h"

bool alarm_mask_allowed(int64_t mask)
{
    return (mask & ~(int64_t)(SAG | SURGE)) == 0;
}

bool alarm_settings_allowed(const struct alarm_settings *settings)
{
    return settings->half_cycle >= 1 && settings->half_cycle <= HALF_CYCLE_MOST && settings->sag >= 0 &&
           settings->sag <= HIGHEST && settings->surge >= 0 && settings->surge <= HIGHEST &&
           alarm_mask_allowed(settings->sticky);
}

/* The squares before the first sample are 0: taking them off changes nothing. A sag level of 0 is off by itself, since
   no sum is below it; a surge level is off where no sum can be above it. */
void alarms_start(struct alarms *alarms, const struct alarm_settings *settings)
{
    const int64_t w = settings->half_cycle, sag = settings->sag, surge = settings->surge;

    memset(alarms, 0, sizeof *alarms);
    alarms->half_cycle = (size_t)w;
    alarms->sag_level = w * sag * sag;
    alarms->surge_level = surge == 0 ? INT64_MAX : w * surge * surge;
    alarms->sticky = settings->sticky;
    alarms->uncompared = (size_t)w - 1;
    alarms->end = HALF_CYCLE_MOST;
}

/* As many squares as the longest half cycle has go back to the beginning, whatever W is: once in 4,096 samples at most
   where blocks are long, and a sample costs the same with every W. */
int64_t *alarms_room(struct alarms *alarms, size_t count)
{
    if (alarms->end + count > HALF_CYCLE_MOST + STRETCH_MOST) {
        memmove(alarms->square, alarms->square + alarms->end - HALF_CYCLE_MOST,
                HALF_CYCLE_MOST * sizeof alarms->square[0]);
        alarms->end = HALF_CYCLE_MOST;
    }
    return alarms->square + alarms->end;
}

static int64_t bits(bool sag, bool surge)
{
    return (sag ? SAG : 0) | (surge ? SURGE : 0);
}

/* A sticky alarm is set if it was or if any comparison says so; any other is what the last comparison says. */
static void show(struct alarms *alarms, int64_t any, int64_t last)
{
    alarms->set = ((alarms->set | any) & alarms->sticky) | (last & ~alarms->sticky);
}

/* The sum is kept as its distances from both levels. A distance below 0 is an alarm. Signs are gathered by an or, since
   a branch would be mispredicted where the voltage goes up and down around a level. */
static void compare(struct alarms *alarms, const int64_t *newest, size_t count)
{
    const int64_t *oldest = newest - alarms->half_cycle;
    int64_t above_sag = alarms->sum - alarms->sag_level, below_surge = alarms->surge_level - alarms->sum;
    int64_t sags = 0, surges = 0;

    for (size_t k = 0; k < count; k++) {
        int64_t change = newest[k] - oldest[k];

        above_sag += change;
        below_surge -= change;
        sags |= above_sag;
        surges |= below_surge;
    }
    alarms->sum = above_sag + alarms->sag_level;
    show(alarms, bits(sags < 0, surges < 0), bits(above_sag < 0, below_surge < 0));
}

void alarms_follow(struct alarms *alarms, size_t count)
{
    const int64_t *newest = alarms->square + alarms->end;
    size_t early = count < alarms->uncompared ? count : alarms->uncompared;

    for (size_t k = 0; k < early; k++)
        alarms->sum += newest[k];
    alarms->uncompared -= early;
    alarms->end += count;
    if (early < count)
        compare(alarms, newest + early, count - early);
}

/* alarms.h: sag and surge on the half cycle (document 02, A3): the last squared voltages, their sum, both alarms. */
#ifndef ALARMS_H
#define ALARMS_H

#include <stdbool.h>
#include <stddef.h>
#include <stdint.h>

enum { HALF_CYCLE_MOST = 512, STRETCH_MOST = 4096 };

/* An alarm is a bit of document 004's status: 21 and 9. */
enum { SAG = 1 << 21, SURGE = 1 << 9 };

/* The start settings. */
struct alarm_settings {
    int64_t half_cycle; /* W */
    int64_t sag, surge; /* VSAG and VSURGE; 0 is off */
    int64_t sticky;     /* the bits that stay set */
};

/* The squares stand in a row, so that the oldest of W is always W places before the newest and no place is worked out.
   A square is at most 2^46: the sum and both levels are at most 2^55. */
struct alarms {
    size_t half_cycle;
    int64_t sag_level, surge_level; /* what the sum must not be below, and not above */
    int64_t sticky, set;            /* bits */
    size_t uncompared;              /* samples to come that have not W - 1 before them */
    int64_t sum;                    /* of the last W squares */
    size_t end;                     /* how many stand in the row */
    int64_t square[HALF_CYCLE_MOST + STRETCH_MOST];
};

bool alarm_settings_allowed(const struct alarm_settings *settings);

/* Whether a mask has the two alarms' bits alone. */
bool alarm_mask_allowed(int64_t mask);

void alarms_start(struct alarms *alarms, const struct alarm_settings *settings);

/* Where the squares of the next voltages go, at most STRETCH_MOST. */
int64_t *alarms_room(struct alarms *alarms, size_t count);

/* So many squares stand there now: follows the sum through them, one after another. */
void alarms_follow(struct alarms *alarms, size_t count);

#endif

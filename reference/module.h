/* module.h: the module: its settings, its cards, the running interval and the last closed one, alarms and both ports.
 */
#ifndef MODULE_H
#define MODULE_H

#include <stdbool.h>
#include <stddef.h>
#include <stdint.h>

#include "alarms.h"
#include "card.h"
#include "packet.h"
#include "registers.h"
#include "sources.h"

enum { PORTS = 2, BLOCK_MOST = 4096 };

/* Of V, S1 and S3: how many of an interval's samples, at most 4,096, lay outside the 24-bit range before clipping. */
struct clippings {
    int64_t of[SLICES];
};

/* What a source comes to over an interval; the products are those with the voltage. */
struct sums {
    int64_t squares, products, peak;
};

/* The running interval. Each sum is over at most 4,096 products of sizes up to 2^23: at most 2^58. */
struct interval {
    int64_t samples;
    int64_t voltage_squares;
    struct sums source[SOURCES];
    struct clippings clipped;
};

/* One direction's energy. The remainder is below the bucket, so below 2^48. */
struct energy {
    int64_t count, remainder;
};

/* A source's energy, both directions. */
struct energies {
    struct energy positive, negative;
};

/* What stood when an interval closed. */
struct reading {
    uint32_t number;
    struct serial serial;
    struct clippings clipped; /* no registers: a hold alone answers them */
    struct registers registers;
};

/* What a hold answers: zeros where it is refused. */
struct held {
    uint32_t number;
    struct serial serial;
    struct clippings clipped;
    int64_t alarms; /* those that are set at the hold, not at the close */
};

/* A port: the card being written there, and what is held there. */
struct port {
    bool open, held;
    struct card card;
    bool written[FIELDS];
    struct reading hold;
};

struct module {
    int64_t samples, bucket; /* N and B */
    int slot[SLOTS];
    struct source source[SOURCES];
    bool has_card, card_waits;
    struct card card, waiting;
    bool has_previous;
    int64_t previous[SLICES]; /* the last raw S1 and S3; a voltage needs none */
    struct interval interval;
    bool some_closed;
    struct reading closed; /* the last closed interval; its number is 0 before the first */
    struct energies energies[SOURCES];
    struct alarms alarms;
    struct port port[PORTS];
};

/* One of a block's three, lent. */
struct slice {
    const int32_t *sample;
    size_t count;
};

/* Each step answers 0 or the number of its refusal; a refused one changes nothing, except that a refused start leaves a
   module with N 1, B 1, every slot off, W 1, no thresholds, nothing sticky and configuration 0. */
int module_start(struct module *module, int64_t samples, int64_t bucket, const int64_t words[SLOTS],
                 const struct alarm_settings *settings, int64_t configuration);
int module_open(struct module *module, int64_t port, const unsigned char *text, size_t length);
int module_write(struct module *module, int64_t port, int64_t field, int64_t value);
int module_commit(struct module *module, int64_t port);
int module_drop(struct module *module, int64_t port);
int module_hold(struct module *module, int64_t port, struct held *held);
int module_read(const struct module *module, int64_t port, int64_t byte_address, int64_t *value);
int module_poll(struct module *module, const unsigned char *packet, size_t length, int64_t room, struct reply *reply);
int module_block(struct module *module, const struct slice slice[SLICES]);
int module_reset(struct module *module, int64_t mask);

/* Closes the running interval, which has its N samples. */
void interval_close(struct module *module);

#endif

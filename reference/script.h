/* script.h: what the parts of the script generator share. */
#ifndef SCRIPT_H
#define SCRIPT_H

#include <stdbool.h>
#include <stddef.h>
#include <stdint.h>

#include "sources.h"

/* The registers, in the order of register_address: VA_RMS, eight of IA, eight of IB, then MIN1 to MIN6 and MAX1 to
 * MAX6. */
enum { TRACKABLE = 7, PLAIN = 17, TRACKED = 6, REGISTERS = PLAIN + 2 * TRACKED };

/* What kind of figures the script is about, from one start to the next. */
enum manner {
    SMALL, /* large voltages and currents of a few units: every offset and SQUELCH can be met exactly */
    FULL,  /* anything within 24 bits */
    EDGE,  /* mostly the ends of the ranges */
    WAVE,  /* two waves, one behind the other */
    MANNERS
};

/* What the generator believes of the module, to make steps that are mostly accepted. It need not be right. */
struct belief {
    enum manner manner;
    int64_t samples; /* N */
    int64_t taken;   /* of the running interval */
    int64_t budget;  /* samples that the script may still spend */
    bool card, waits, closed;
    struct {
        bool open, held;
        unsigned written; /* a bit a field */
    } port[2];
};

/* Values (script-values.c). Numbers are written with a space before them, in any form that stands for them. */
void put_number(int64_t value);
void put_end(void);
void put_port(int port);
int64_t good_field(enum manner manner, int field);
int64_t bad_field_value(int field);
int64_t bad_number(int64_t near);
int64_t good_samples(void);
int64_t good_bucket(void);
int64_t good_word(void);
int64_t bad_word(void);
int64_t register_address(int which);
int64_t good_configuration(void);
int64_t bad_configuration(void);
void put_configuration(int64_t configuration); /* with the settings before it at their lowest, or left out if it is 0 */
int64_t bad_address(void);
const char *field_name(int field); /* 1 to 8 */
const char *register_name(int which);
void put_field(int field); /* these three: as a number, or by name where there is one */
void put_word(int64_t word);
void put_address(int64_t address);
void put_serial(void);
void put_bad_serial(void);
void put_step(const char *step, int port);       /* its word and a good port, the line not ended */
void put_card(const int64_t value[8], int port); /* open, the fields in their order, commit */

/* Blocks (script-blocks.c). */
void put_block(struct belief *belief);
void put_slice(const int64_t *sample, size_t count); /* a space before each; a long one in plain decimal alone */
void put_even_block(const int64_t *v, const int64_t *s1, const int64_t *s3, int64_t count);

/* Lines that are no step, or hardly one (script-oddities.c). */
void put_oddity(void);
void put_silence(void);
void put_long_line(void);
void put_last_line(void);

/* Lines that are nearly a block (script-block-lines.c). */
void put_odd_block(void);
void put_full_slice(void);

/* A hold, and a read of every register: says how many steps it took (make-script.c). */
int whole_reading(struct belief *belief, int port);

/* Intervals around SQUELCH, on a fresh module (script-no-load.c). */
void put_no_load(struct belief *belief);

/* Samples around the ends of the 24-bit range, on a fresh module (script-clipped.c). */
void put_clipped(void);

/* The start settings of sag and surge. */
struct watch {
    int64_t half_cycle, sag, surge, sticky;
};

/* Lines about sag and surge (script-alarm-lines.c). */
int64_t good_mask(void);
void put_watch_start(int64_t n, const struct watch *watch);
void put_refused_watch_start(int64_t n, const struct watch *watch);
void put_reset(int64_t mask);
void put_refused_reset(void);
void put_odd_watch(void);

/* Sums of squares around the levels of sag and surge, on fresh modules (script-alarms.c). */
void put_alarms(void);

/* What is believed of a module that is polled. */
struct site {
    int64_t n, taken;
    unsigned slots; /* those that are on: a bit each */
    bool closed;
};

enum { PACKET_MOST = 4096 };

/* A packet, and how many bytes the reply to it is believed to have. */
struct packet {
    unsigned char byte[PACKET_MOST];
    size_t length, reply;
};

/* A packet with a good frame (script-packets.c). */
void packet_make(struct packet *packet, const struct site *site);

/* What may be wrong with a frame (script-frames.c). */
void packet_sum(struct packet *packet); /* its last byte */
void packet_damage(struct packet *packet);

/* Lines with a packet, and lines that are nearly one (script-poll-lines.c). */
void put_poll(const struct packet *packet, int64_t room);
void put_odd_poll(void);
void put_long_poll(void);

/* The sources IA and IB by every configuration, on fresh modules (script-sources.c). */
void put_sources(void);

/* Packets of the serial line, with holds and reads at port 1 between them, on fresh modules (script-polls.c). */
void put_polls(void);

/* Names that are none, or stand in the wrong place (script-names.c). */
void put_odd_name(void);

#endif

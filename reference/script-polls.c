/* script-polls.c: a passage about polls: packets of every kind before and behind closes, with holds and reads at port 1
   that show what a poll has held there. */
#include <stdio.h>

#include "numbers.h"
#include "random.h"
#include "script.h"

enum { ONE = 2097152, LONGEST = 12 };

static void put_site_start(struct site *site)
{
    static const int64_t word[7] = {0x2B, 0x3E, 0x46, 0x4B, 0x4E, 0x65, 0x8B};

    fputs("start", stdout);
    put_number(site->n);
    put_number(PICK(1, 1, 100, 65536, 16777216));
    for (int k = 0; k < TRACKED; k++)
        put_word(site->slots >> k & 1 ? word[draw(7)] : 0);
    if (chance(50)) { /* a sag that stays, for a poll to leave it set */
        fputs(" 1 8388607 0 0x200000", stdout);
        put_number(good_configuration());
    } else {
        put_configuration(good_configuration());
    }
    put_end();
}

/* Gains near one and small offsets, so that every register shows something. */
static void put_any_card(int port)
{
    int64_t value[8] = {0};

    value[0] = PICK(0, 0, 1, -1000, between(-100000, 100000));
    value[1] = PICK(0, 0, -1, 1000, between(-100000, 100000));
    value[2] = PICK(ONE, ONE, ONE / 2, between(ONE / 2, ONE * 2));
    value[3] = PICK(ONE, ONE, ONE / 2, between(ONE / 2, ONE * 2));
    value[4] = PICK(0, 0, 2048, 4095);
    value[6] = PICK(0, 0, 0, 1000);
    put_card(value, port);
}

static void fill(int64_t sample[LONGEST], int64_t most, int64_t count)
{
    for (int64_t k = 0; k < count; k++)
        sample[k] = between(-most, most);
}

/* Mostly the rest of the interval, so that it closes; sometimes several, sometimes less than one. */
static void put_samples(struct site *site)
{
    int64_t left = site->n - site->taken, count = PICK(left, left, left, left + site->n, left - 1, between(1, LONGEST));
    int64_t sample[SLICES][LONGEST];

    fill(sample[V], PICK(HIGHEST, HIGHEST, 5000000, 300000, 700), count);
    fill(sample[S1], PICK(HIGHEST, 5000000, 70000, 900, 5), count);
    fill(sample[S3], PICK(HIGHEST, 5000000, 70000, 900, 5), count);
    put_even_block(sample[V], sample[S1], sample[S3], count);
    site->closed = site->closed || count >= left;
    site->taken = (site->taken + count) % site->n;
}

static void put_hold(int port)
{
    put_step("hold", port);
    put_end();
}

/* A few registers, most of which another interval shows otherwise. */
static void put_reads(int port, int64_t count)
{
    for (; count > 0; count--) {
        put_step("read", port);
        put_address(register_address((int)(chance(75) ? draw(PLAIN) : draw(REGISTERS))));
        put_end();
    }
}

/* Enough, just enough, one less, none. */
static int64_t any_room(size_t reply)
{
    int64_t length = (int64_t)reply;

    return PICK(255, 255, 255, 255, length, length, length, length > 0 ? length - 1 : 0, length > 0 ? length - 1 : 0,
                at_most(length + 1, 255), 0, 1, between(0, 255));
}

static void put_any_poll(const struct site *site)
{
    struct packet packet;

    packet_make(&packet, site);
    if (chance(18))
        packet_damage(&packet);
    put_poll(&packet, any_room(packet.reply));
    if (chance(6)) /* nothing carries over, and with room it may be sent */
        put_poll(&packet, 255);
}

/* A commit, or a start of a card, at a desk while polls come. */
static void put_card_work(void)
{
    int port = (int)draw(2);

    if (chance(60)) {
        put_any_card(port);
        return;
    }
    put_step("open", port);
    put_serial();
    put_end();
    put_step("write", port);
    fputs(" VOFFS 5", stdout);
    put_end();
}

static void put_drop(int port)
{
    put_step("drop", port);
    put_end();
}

static void put_cards(void)
{
    fputs("cards", stdout);
    put_end();
}

static void put_between(struct site *site)
{
    uint64_t what = draw(100);

    if (what < 14)
        put_hold(1);
    else if (what < 18)
        put_hold(0);
    else if (what < 24)
        put_reads(0, 1);
    else if (what < 32)
        put_card_work();
    else if (what < 46)
        put_odd_poll();
    else if (what < 50)
        put_drop((int)draw(2));
    else if (what < 58)
        put_cards();
    else if (what < 78)
        put_samples(site);
}

/* Polls, and behind most of them reads that show whether they held. */
static void put_round(struct site *site)
{
    for (int64_t polls = between(1, 3); polls > 0; polls--) {
        put_any_poll(site);
        if (chance(65))
            put_reads(1, between(1, 2));
        if (chance(35))
            put_between(site);
    }
}

static void put_site(struct site *site, int64_t rounds)
{
    put_site_start(site);
    if (chance(60))
        put_round(site);
    put_any_card((int)draw(2));
    if (chance(40))
        put_round(site);
    for (; rounds > 0; rounds--) {
        put_samples(site);
        put_round(site);
    }
}

void put_polls(void)
{
    for (int64_t sites = between(2, 3); sites > 0; sites--) {
        struct site site = {.n = PICK(1, 1, 2, 2, 3, 4)};

        site.slots = (unsigned)PICK(63, 63, 63, 0, 31, 62, 15, between(0, 63));
        put_site(&site, between(8, 14));
    }
    if (chance(60))
        put_long_poll();
}

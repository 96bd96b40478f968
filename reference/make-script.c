/* make-script.c: the program make-script: prints a script for the console, by chance from its seed. */
#include <stdio.h>

#include "random.h"
#include "script.h"

enum { STEPS = 400, ALL_WRITTEN = 255, CONFIGURATION = 12 };

/* The first eight settings and the configuration, one of them out of range or none (-1). */
static void put_settings(int64_t n, int bad)
{
    put_number(bad == 0 ? PICK(0, -1, 4097, 4097, bad_number(n)) : n);
    put_number(bad == 1 ? PICK(0, -1, INT64_C(281474976710656), INT64_C(281474976710656), bad_number(0))
                        : good_bucket());
    for (int k = 2; k < 8; k++)
        put_word(bad == k ? bad_word() : good_word());
    put_configuration(bad == CONFIGURATION ? bad_configuration() : good_configuration());
}

static void put_cards(void)
{
    fputs("cards", stdout);
    put_end();
}

static void put_help(void)
{
    fputs("help", stdout);
    put_end();
}

/* A refused start keeps the module, so the belief stays. */
static void put_refused_start(void)
{
    int bad = (int)PICK(0, 0, 1, 1, 2, 3, 4, 5, 6, 7, CONFIGURATION, CONFIGURATION);

    fputs("start", stdout);
    put_settings(good_samples(), bad);
    put_end();
    if (chance(60))
        put_cards();
}

static void put_start(struct belief *belief)
{
    int64_t budget = belief->budget, n = good_samples();

    if (chance(20))
        put_refused_start();
    *belief = (struct belief){.manner = (enum manner)draw(MANNERS), .samples = n, .budget = budget};
    fputs("start", stdout);
    put_settings(n, -1);
    put_end();
    if (chance(30))
        put_cards();
}

static void put_open(struct belief *belief, int port)
{
    bool bad = chance(5);

    fputs("open", stdout);
    put_port(port);
    if (bad)
        put_bad_serial();
    else
        put_serial();
    put_end();
    if (!bad && !belief->port[port].open) {
        belief->port[port].open = true;
        belief->port[port].written = 0;
    }
}

static void put_write(struct belief *belief, int port, int field)
{
    bool bad = chance(4);

    fputs("write", stdout);
    put_port(port);
    if (bad && chance(50)) {
        put_number(PICK(0, 9, -1, 10, bad_number(field)));
        put_number(chance(50) ? good_field(belief->manner, field) : INT64_MAX);
    } else {
        put_field(field);
        put_number(bad ? bad_field_value(field) : good_field(belief->manner, field));
    }
    put_end();
    if (!bad && belief->port[port].open)
        belief->port[port].written |= 1u << (field - 1);
}

static void put_commit(struct belief *belief, int port)
{
    fputs("commit", stdout);
    put_port(port);
    put_end();
    if (belief->port[port].open && belief->port[port].written == ALL_WRITTEN) {
        belief->port[port].open = false;
        belief->waits = true;
    }
    if (chance(25))
        put_cards();
}

static void put_drop(struct belief *belief, int port)
{
    fputs("drop", stdout);
    put_port(port);
    put_end();
    belief->port[port].open = false;
}

static void put_hold(struct belief *belief, int port)
{
    fputs("hold", stdout);
    put_port(port);
    put_end();
    belief->port[port].held = belief->closed;
}

static void put_read(int port, int64_t address)
{
    fputs("read", stdout);
    put_port(port);
    put_address(address);
    put_end();
}

static int unwritten_field(unsigned written)
{
    int field = (int)between(1, 8);

    while (written >> (field - 1) & 1)
        field = field % 8 + 1;
    return field;
}

/* The next thing that a fitter at this port does; sometimes the wrong one. */
static void at_desk(struct belief *belief, int port)
{
    bool open = belief->port[port].open, whole = belief->port[port].written == ALL_WRITTEN;

    if (chance(4))
        put_commit(belief, port);
    else if (chance(3))
        put_drop(belief, port);
    else if (chance(3))
        put_open(belief, port);
    else if (chance(3))
        put_write(belief, port, (int)between(1, 8));
    else if (!open)
        put_open(belief, port);
    else if (!whole)
        put_write(belief, port, unwritten_field(belief->port[port].written));
    else
        put_commit(belief, port);
}

static int whole_card(struct belief *belief, int port)
{
    int steps = 0;

    do {
        at_desk(belief, port);
        steps++;
    } while (belief->port[port].open && steps < 20);
    return steps;
}

/* Without a card a block is refused: then mostly see to a card first. */
static void feed(struct belief *belief)
{
    int busy = belief->port[1].open;

    if (!belief->card && !belief->waits && chance(95))
        at_desk(belief, chance(90) ? busy : !busy);
    else
        put_block(belief);
}

/* Before an interval has closed a hold is refused. */
static void hold(struct belief *belief, int port)
{
    if (belief->closed || chance(5))
        put_hold(belief, port);
    else
        feed(belief);
}

static void read_one(struct belief *belief, int port)
{
    if (belief->port[port].held || chance(5))
        put_read(port, chance(85) ? register_address((int)draw(REGISTERS)) : bad_address());
    else
        hold(belief, port);
}

int whole_reading(struct belief *belief, int port)
{
    hold(belief, port);
    if (!belief->port[port].held)
        return 1;
    for (int which = 0; which < REGISTERS; which++)
        put_read(port, register_address(which));
    return 1 + REGISTERS;
}

/* Says how many steps it took. */
static int something(struct belief *belief)
{
    uint64_t what = draw(1000);
    int port = (int)draw(2);

    if (what < 8)
        put_start(belief);
    else if (what < 15)
        put_refused_start();
    else if (what < 65)
        put_oddity();
    else if (what < 80)
        put_odd_name();
    else if (what < 100)
        put_silence();
    else if (what < 103)
        put_help();
    else if (what < 125)
        put_cards();
    else if (what < 155)
        return whole_card(belief, port);
    else if (what < 450)
        at_desk(belief, port);
    else if (what < 800)
        feed(belief);
    else if (what < 815)
        return whole_reading(belief, port);
    else if (what < 875)
        hold(belief, port);
    else
        read_one(belief, port);
    return 1;
}

int main(int argc, char **argv)
{
    uint64_t seed = seed_argument(argc, argv);
    struct belief belief = {.manner = FULL, .samples = 1, .budget = 60000};
    int steps = 0;

    random_seed(seed);
    if (chance(1))
        return 0;
    for (int starts = (int)draw(6); starts > 0; starts--)
        put_start(&belief);
    if (chance(85))
        steps += whole_card(&belief, (int)draw(2));
    while (steps < STEPS)
        steps += something(&belief);
    if (chance(50))
        put_long_line();
    if (chance(80))
        put_full_slice();
    whole_reading(&belief, (int)draw(2));
    if (chance(70))
        put_no_load(&belief);
    if (chance(80))
        put_clipped();
    if (chance(80))
        put_alarms();
    if (chance(80))
        put_polls();
    if (chance(85))
        put_sources();
    put_last_line();
    return fflush(stdout) == 0 ? 0 : 1;
}

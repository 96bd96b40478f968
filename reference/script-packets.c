/* script-packets.c: packets of the serial line: commands that mostly read registers, commands that fail, and damage. */
#include <string.h>

#include "random.h"
#include "script.h"

enum { PAYLOAD_MOST = 252, FRAME = 3, AIM_AND_READ = 9 };

/* A packet's commands, and what they are believed to come to. */
struct draft {
    unsigned char byte[PAYLOAD_MOST];
    size_t length;
    const struct site *site;
    int64_t pointer;
    size_t data;
    bool failed, silent; /* silent: where it failed, nothing is replied */
    bool ended;          /* a command whose parameters lack must be the last */
};

static void add(struct draft *draft, int64_t byte)
{
    if (draft->length < PAYLOAD_MOST)
        draft->byte[draft->length++] = (unsigned char)byte;
}

static void add_pair(struct draft *draft, int64_t command, int64_t parameter)
{
    add(draft, command);
    add(draft, parameter);
}

/* The first failure decides. */
static void fails(struct draft *draft, bool silent)
{
    if (!draft->failed)
        draft->silent = silent;
    draft->failed = true;
}

static bool readable(const struct site *site, int64_t address)
{
    int which = 0;

    while (which < REGISTERS && register_address(which) != address)
        which++;
    return which < PLAIN || (which < REGISTERS && (site->slots >> (which - PLAIN) % TRACKED & 1));
}

/* How many registers stand one behind the other. */
static int64_t run_from(const struct site *site, int64_t address)
{
    int64_t words = 0;

    while (readable(site, address + 3 * words))
        words++;
    return words;
}

static int64_t any_register(const struct site *site)
{
    int64_t address;

    do
        address = register_address((int)draw(REGISTERS));
    while (!readable(site, address));
    return address;
}

/* Every way to bring the pointer there, one half alone where the other stands already. */
static void aim(struct draft *draft, int64_t address)
{
    int64_t low = address % 256, high = address / 256;
    bool low_stands = draft->pointer % 256 == low, high_stands = draft->pointer / 256 == high;
    bool cleared = false;

    draft->pointer = address;
    if (high_stands && chance(60)) {
        add_pair(draft, 0xA1, low);
    } else if (low_stands && chance(60)) {
        add_pair(draft, 0xA2, high);
    } else if (chance(50)) {
        add(draft, 0xA3);
        add_pair(draft, low, high);
    } else {
        cleared = chance(40);
        if (cleared)
            add(draft, 0xA0);
        if (chance(50) && !(cleared && low == 0))
            add_pair(draft, 0xA1, low);
        if (!(cleared && high == 0))
            add_pair(draft, 0xA2, high);
        add_pair(draft, 0xA1, low);
    }
}

static void add_read(struct draft *draft, int64_t count)
{
    if (count > 0 && count < 16 && chance(75))
        add(draft, 0xE0 + count);
    else
        add_pair(draft, 0xE0, count);
}

static void read_good(struct draft *draft, int64_t words)
{
    add_read(draft, 3 * words);
    draft->pointer += 3 * words;
    draft->data += (size_t)(3 * words);
    if (words > 0 && !draft->site->closed)
        fails(draft, false);
}

/* One register or several that stand together, by one read or by one behind the other. */
static void read_registers(struct draft *draft)
{
    int64_t address = any_register(draft->site), run = run_from(draft->site, address);
    int64_t words = chance(50) ? run : between(1, run);

    if (chance(12))
        aim(draft,
            PICK(0xFF, 0x100, address + 0x200, 0x1FF, 0xFF81, address % 256, address / 256 * 256, between(0, 65535)));
    aim(draft, address);
    while (words > 0) {
        int64_t part = chance(60) ? words : between(1, words);

        read_good(draft, part);
        if (chance(5))
            read_good(draft, 0);
        words -= part;
    }
}

static void add_not_selected(struct draft *draft)
{
    if (chance(50))
        add(draft, 0xC0);
    else
        add_pair(draft, 0xCF, 0);
}

static void add_selection(struct draft *draft)
{
    for (int64_t times = PICK(0, 0, 0, 1, 2); times > 0; times--)
        add_not_selected(draft);
    if (chance(50))
        add(draft, 0xC1);
    else
        add_pair(draft, 0xCF, 1);
}

/* A command that succeeds and sends nothing. */
static void add_quiet(struct draft *draft)
{
    uint64_t what = draw(4);

    if (what == 0)
        read_good(draft, 0);
    else if (what == 1)
        aim(draft, between(0, 65535));
    else
        add_selection(draft);
}

static void add_good(struct draft *draft)
{
    if (chance(75))
        read_registers(draft);
    else
        add_quiet(draft);
}

/* An address that the read step refuses. */
static int64_t no_address(const struct site *site)
{
    int64_t address = any_register(site), off = register_address(PLAIN + (int)draw(2 * TRACKED));

    if (!readable(site, off) && chance(60))
        return off;
    return PICK(address + 1, address + 2, address - 1, address / 3, (address + 0x8000) % 65536, address + 0x200, 0,
                0x154, 0x150, 0x177, 0xFF, 0xFFFF, 0xFFFD, between(0, 65535));
}

/* At the end of a stretch of registers the next word is none. */
static void read_too_far(struct draft *draft)
{
    int64_t address = any_register(draft->site), run = run_from(draft->site, address);

    aim(draft, address);
    if (chance(40) && run > 1) {
        read_good(draft, run - 1);
        run = 1;
    } else if (chance(30)) {
        read_good(draft, run);
        run = 0;
    }
    add_read(draft, PICK(3 * run + 3, 3 * run + 3, 3 * run + 3, 3 * run + 6, 255));
    fails(draft, false);
}

/* Where the pointer stands in a packet that has not set it, or behind 0xA0: no register has a lower byte of 0. */
static void read_from_0(struct draft *draft)
{
    int64_t address = any_register(draft->site);

    if (draft->length > 0 || chance(50)) {
        aim(draft, address);
        add(draft, 0xA0);
    }
    if (chance(50))
        add_pair(draft, 0xA2, address / 256);
    add_read(draft, 3);
    fails(draft, false);
}

static void add_write(struct draft *draft)
{
    int64_t count = between(0, 15), there = chance(60) ? count : between(0, 15);

    add(draft, 0xD0 + count);
    if (chance(60))
        there = 3;
    for (; there > 0; there--)
        add(draft, PICK(0xE3, 0xC1, 0xC2, 0x00, 0xA0, between(0, 255)));
    fails(draft, false);
}

static int64_t unknown_command(void)
{
    int64_t low = between(0, 0x9F), middle = between(0xA4, 0xBF), high = between(0xF0, 0xFF);

    return PICK(0x00, 0x7F, 0x80, 0x9F, 0xA4, 0xA4, 0xAF, 0xB0, 0xBF, 0xF0, 0xFF, low, low, middle, middle, high);
}

static void cut_parameters(struct draft *draft)
{
    int64_t command = PICK(0xA1, 0xA2, 0xA3, 0xA3, 0xCF, 0xCF, 0xE0);

    add(draft, command);
    if (command == 0xA3 && chance(60))
        add(draft, 0x81);
    draft->ended = true;
    fails(draft, false);
}

static void add_other_device(struct draft *draft)
{
    if (chance(50))
        add(draft, PICK(0xC2, 0xCE, between(0xC2, 0xCE)));
    else
        add_pair(draft, 0xCF, PICK(2, 14, 15, 16, 16, 17, 128, 129, 129, 255, between(2, 255)));
    fails(draft, true);
}

static void add_failure(struct draft *draft)
{
    uint64_t what = draw(100);
    int64_t part = between(1, 15), odd = PICK(1, 2, 4, 5, 7, 8, 13, 14, part, 3 * part + 1, 253, 254, 16, 17);

    if (what < 20) {
        add(draft, unknown_command());
    } else if (what < 38) {
        add_write(draft);
    } else if (what < 52) {
        aim(draft, any_register(draft->site));
        add_read(draft, odd % 3 == 0 ? odd + 1 : odd);
    } else if (what < 67) {
        aim(draft, no_address(draft->site));
        add_read(draft, 3);
    } else if (what < 74) {
        read_from_0(draft);
    } else if (what < 85) {
        read_too_far(draft);
    } else if (what < 93) {
        add_other_device(draft);
    } else {
        cut_parameters(draft);
    }
    fails(draft, false);
}

/* Not selected, it acknowledges that at the packet's end, and is silent to anything but a selection. */
static void add_deselection(struct draft *draft)
{
    add_not_selected(draft);
    if (chance(35))
        return;
    fails(draft, true);
    if (chance(25))
        cut_parameters(draft);
    else if (chance(50))
        add_failure(draft);
    else
        add_good(draft);
}

static void add_commands(struct draft *draft, int64_t count)
{
    for (; count > 0; count--)
        add_good(draft);
}

/* Something that fails, with good commands before and behind it, or another that would fail. */
static void fail_between(struct draft *draft)
{
    if (chance(60))
        add_commands(draft, between(1, 3));
    if (chance(15))
        add_deselection(draft);
    else
        add_failure(draft);
    if (!draft->ended && chance(60))
        add_commands(draft, between(1, 2));
    if (!draft->ended && chance(30))
        add_failure(draft);
}

/* As much data as is asked for, or as the packet has room to ask for. */
static void fill(struct draft *draft, size_t target)
{
    int64_t address = register_address(PLAIN), run = run_from(draft->site, address);

    while (draft->data < target && draft->length + AIM_AND_READ <= PAYLOAD_MOST) {
        int64_t left = (int64_t)(target - draft->data) / 3;

        if (left < run || chance(10)) {
            aim(draft, any_register(draft->site));
            read_good(draft, 1);
        } else {
            aim(draft, address);
            read_good(draft, run);
        }
    }
}

/* With every slot off a packet can just ask for 252 bytes. */
static void fill_singly(struct draft *draft, int64_t registers)
{
    for (; registers > 0; registers--) {
        draft->pointer = register_address((int)draw(5));
        add_pair(draft, 0xA1, draft->pointer);
        draft->pointer += 3;
        draft->data += 3;
        add(draft, 0xE3);
    }
    if (!draft->site->closed)
        fails(draft, false);
}

static void ask_for_much(struct draft *draft)
{
    if (run_from(draft->site, register_address(PLAIN)) < 4 || chance(10))
        fill_singly(draft, PICK(84, 84, 84, 83, 82));
    else
        fill(draft, (size_t)PICK(246, 249, 249, 252, 252, 252, 252, 255, 255, 255, 258, 300, 900, 9000));
    if (!draft->ended && chance(10))
        add_failure(draft);
}

static size_t believed_reply(const struct draft *draft)
{
    if (draft->failed)
        return draft->silent ? 0 : 1;
    return draft->data == 0 || draft->data > PAYLOAD_MOST ? 1 : draft->data + FRAME;
}

void packet_make(struct packet *packet, const struct site *site)
{
    struct draft draft = {.site = site};
    uint64_t what = draw(100);

    if (what < 34)
        read_registers(&draft);
    else if (what < 52)
        add_commands(&draft, between(2, 6));
    else if (what < 62)
        ask_for_much(&draft);
    else if (what < 67)
        add_quiet(&draft);
    else if (what < 72)
        add_deselection(&draft);
    else
        fail_between(&draft);
    packet->byte[0] = 0xAA;
    packet->byte[1] = (unsigned char)(draft.length + FRAME);
    memcpy(packet->byte + 2, draft.byte, draft.length);
    packet->length = draft.length + FRAME;
    packet->reply = believed_reply(&draft);
    packet_sum(packet);
}

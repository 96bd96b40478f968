/* script-values.c: settings, fields, addresses and serials, good and bad, cards, and the ways to write a number. */
#include <inttypes.h>
#include <stdio.h>

#include "random.h"
#include "script.h"

enum { TOP = 8388607, BOTTOM = -8388608, ONE = 2097152 };

static void put_hexadecimal(int64_t value)
{
    char digits[17];
    int length = snprintf(digits, sizeof digits, "%" PRIx64, (uint64_t)value);

    fputs("0x", stdout);
    if (chance(20))
        fputs("000", stdout);
    for (int k = 0; k < length; k++)
        putchar(digits[k] >= 'a' && chance(50) ? digits[k] - 'a' + 'A' : digits[k]);
}

void put_number(int64_t value)
{
    uint64_t size = value < 0 ? -(uint64_t)value : (uint64_t)value;

    putchar(' ');
    if (value >= 0 && chance(20)) {
        put_hexadecimal(value);
        return;
    }
    if (value < 0 || (value == 0 && chance(5)))
        putchar('-');
    if (chance(4))
        fputs(chance(90) ? "00" : "0000000000000000000000000", stdout);
    printf("%" PRIu64, size);
}

/* Numbers that would pass for `near` if bits were lost on the way, and other far ones. */
int64_t bad_number(int64_t near)
{
    int64_t lost = PICK(8, 16, 32, 48, 62);

    if (chance(60))
        return near + (INT64_C(1) << lost);
    return PICK(INT64_MAX, INT64_MIN, -1, INT64_C(2147483648), INT64_C(4294967296), INT64_C(-2147483649));
}

/* The end of a line, now and then with a carriage return. */
void put_end(void)
{
    if (chance(4))
        putchar('\r');
    putchar('\n');
}

void put_port(int port)
{
    put_number(chance(2) ? PICK(2, -1, 256, 257, 3, bad_number(port)) : port);
}

static int64_t any_size(void)
{
    return (int64_t)draw(UINT64_C(1) << draw(24));
}

static int64_t good_offset(enum manner manner)
{
    if (manner == SMALL)
        return chance(60) ? 0 : between(-3, 3);
    if (manner == EDGE)
        return PICK(0, 0, 0, 0, 0, 0, 1, -1, TOP, BOTTOM, TOP - 1, BOTTOM + 1);
    return chance(50) ? between(-500, 500) : PICK(0, TOP, BOTTOM, between(BOTTOM, TOP));
}

static int64_t good_gain(enum manner manner)
{
    int64_t any = between(1, TOP);

    if (manner == SMALL && chance(70))
        return ONE;
    if (manner == EDGE)
        return PICK(ONE, ONE, ONE, ONE, ONE, 1, 2, TOP, ONE - 1, ONE + 1, ONE * 2);
    return PICK(ONE, ONE / 2, ONE * 2, ONE - 1, ONE + 1, any, between(ONE / 2, ONE * 2), 1, TOP);
}

static int64_t good_lessening(enum manner manner)
{
    if (manner == SMALL)
        return chance(40) ? 0 : between(1, 6);
    if (manner == EDGE)
        return PICK(0, 0, 0, 0, 1, TOP, TOP - 1, TOP - 2);
    return chance(40) ? 0 : any_size();
}

int64_t good_field(enum manner manner, int field)
{
    if (field <= 2)
        return good_offset(manner);
    if (field <= 4)
        return good_gain(manner);
    if (field == 5)
        return PICK(0, 0, 1, 2048, 4095, 4094, between(0, 4095));
    return good_lessening(manner);
}

int64_t bad_field_value(int field)
{
    if (field <= 2)
        return PICK(TOP + 1, BOTTOM - 1, bad_number(BOTTOM));
    if (field <= 4)
        return PICK(0, -1, TOP + 1, bad_number(ONE));
    if (field == 5)
        return PICK(-1, 4096, bad_number(7));
    return PICK(-1, TOP + 1, bad_number(0));
}

int64_t good_samples(void)
{
    int64_t few = between(3, 12);

    if (chance(85))
        return PICK(1, 2, 2, 3, 4, 5, few, between(3, 40));
    return PICK(4096, 4095, 400, 64, 256, between(41, 4096));
}

int64_t good_bucket(void)
{
    int64_t small = between(1, 1000), size = any_size();

    return PICK(1, 2, 100, INT64_C(281474976710655), INT64_C(0x0001AFC8BB4C), 1 + size, 1 + size * 64, 16777216, small);
}

static int64_t table_word(int which)
{
    static const int64_t word[PLAIN] = {0x2B, 0x3E, 0x46, 0x4B, 0x4E, 0x65, 0x8B, 0x8F, 0x92,
                                        0x3F, 0x47, 0x4C, 0x4F, 0x66, 0x8C, 0x95, 0x98};

    return which < PLAIN ? word[which] : 0x71 + which - PLAIN;
}

const char *field_name(int field)
{
    static const char *const name[8] = {"VOFFS", "IOFFS", "VGAIN", "IGAIN", "PHASE", "IRMSOFFS", "SQUELCH", "POFFS"};

    return name[field - 1];
}

const char *register_name(int which)
{
    static const char *const name[REGISTERS] = {
        "VA_RMS",     "IA_RMS", "IA_PEAK", "WATT_A", "VA_A", "PFA",  "IA_CREST", "PA_POS_CNT",
        "PA_NEG_CNT", "IB_RMS", "IB_PEAK", "WATT_B", "VA_B", "PFB",  "IB_CREST", "PB_POS_CNT",
        "PB_NEG_CNT", "MIN1",   "MIN2",    "MIN3",   "MIN4", "MIN5", "MIN6",     "MAX1",
        "MAX2",       "MAX3",   "MAX4",    "MAX5",   "MAX6",
    };

    return name[which];
}

/* The number itself, or the name of the register that has it as its word times `unit`. */
static void put_named(int64_t number, int64_t unit)
{
    int which = 0;

    while (which < REGISTERS && unit * table_word(which) != number)
        which++;
    if (which < REGISTERS && chance(40))
        printf(" %s", register_name(which));
    else
        put_number(number);
}

void put_field(int field)
{
    if (chance(40))
        printf(" %s", field_name(field));
    else
        put_number(field);
}

void put_word(int64_t word)
{
    put_named(word, 1);
}

void put_address(int64_t address)
{
    put_named(address, 3);
}

int64_t good_word(void)
{
    return chance(25) ? 0 : table_word((int)draw(TRACKABLE));
}

int64_t bad_word(void)
{
    int64_t good = table_word((int)draw(TRACKABLE)), other = table_word((int)between(TRACKABLE, PLAIN - 1));

    return PICK(other, other, other, other, 0x71, 0x7C, 1, -1, good + 1, good * 3, -good, bad_number(good));
}

int64_t register_address(int which)
{
    return 3 * table_word(which);
}

int64_t bad_address(void)
{
    int64_t word = table_word((int)draw(REGISTERS)), byte = 3 * word;

    return PICK(byte + 1, byte - 1, byte + 3, byte - 3, word, 0, 0x154, 0x150, 0x177, 0x1AE, byte + 3 * 65536, -byte,
                65539, bad_number(byte));
}

/* Mostly one input a source, the usual one often; then every other. */
int64_t good_configuration(void)
{
    int64_t any = between(0, 255);

    return PICK(0x96, 0x96, 0x96, 0x96, 0x69, 0x66, 0x99, 0, 255, any, any, any);
}

int64_t bad_configuration(void)
{
    int64_t good = between(0, 255), far = PICK(8, 16, 32, 48, 62);

    return PICK(256, 256, 256, -1, -1, 0x196, -0x96, good + (INT64_C(1) << far), INT64_MAX, INT64_MIN + good);
}

void put_configuration(int64_t configuration)
{
    static const int64_t lowest[] = {1, 0, 0, 0};
    int64_t items = configuration == 0 && chance(70) ? between(0, 4) : 5;

    for (int64_t k = 0; k < items && k < 4; k++)
        put_number(lowest[k]);
    if (items == 5)
        put_number(configuration);
}

void put_serial(void)
{
    static const char *const known[] = {"0417", "417", "00417", "4170", "0", "00", "000000000000", "999999999999"};
    size_t length = (size_t)between(1, 12);

    putchar(' ');
    if (chance(50))
        fputs(known[draw(8)], stdout);
    else
        while (length-- > 0)
            putchar((int)('0' + draw(10)));
}

void put_bad_serial(void)
{
    static const char *const bad[] = {"",
                                      "1234567890123",
                                      "04 17",
                                      " 0417",
                                      "0417 ",
                                      "04a7",
                                      "-417",
                                      "0x417",
                                      "0417\r",
                                      "\xff",
                                      "/",
                                      ":",
                                      "\t",
                                      "+1",
                                      "1234567890123456789012345"};

    putchar(' ');
    if (chance(10))
        fwrite("04\0", 1, 3, stdout);
    else
        fputs(bad[draw(sizeof bad / sizeof bad[0])], stdout);
}

void put_step(const char *step, int port)
{
    fputs(step, stdout);
    put_number(port);
}

void put_card(const int64_t value[8], int port)
{
    put_step("open", port);
    put_serial();
    put_end();
    for (int field = 1; field <= 8; field++) {
        put_step("write", port);
        put_field(field);
        put_number(value[field - 1]);
        put_end();
    }
    put_step("commit", port);
    put_end();
}

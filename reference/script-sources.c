/* script-sources.c: a passage about the sources IA and IB by every configuration: sums that are odd and of either sign,
   at the ends of the range and beyond them, inputs that are clipped or not, SQUELCH and the offsets around one source
   or the other, energy of either sign on either. */
#include <stdio.h>

#include "numbers.h"
#include "random.h"
#include "script.h"

enum { ONE = 2097152, LONGEST = 12 };

/* What a board's samples are. */
enum kind {
    FEW,    /* a few units: what is rounded shows */
    FAR,    /* around such that a source comes to an end of the range */
    STEADY, /* of one size each, so that the roots are known */
    ANYTHING,
    KINDS
};

/* What is believed of a board. A steady one has these sizes; the voltage's signs are the inputs' or the other ones. */
struct board {
    int64_t n, taken, configuration;
    bool closed;
    enum kind kind;
    int64_t size[SLICES];
};

/* With a refused one before it, now and then, whose configuration must not stay. */
static void put_board_start(const struct board *board)
{
    int64_t bucket = PICK(1, 1, 1, 2, 10, 100, 65536, 16777216);

    fputs("start", stdout);
    put_number(board->n);
    put_number(bucket);
    for (int k = 0; k < TRACKED; k++)
        put_word(chance(50) ? 0 : good_word());
    put_configuration(board->configuration);
    put_end();
}

static void put_refused_start(void)
{
    bool by_number = chance(30), by_slot = chance(40);
    int64_t configuration = by_number || by_slot ? good_configuration() : bad_configuration();

    fputs("start", stdout);
    put_number(by_number ? PICK(0, 4097, -1) : good_samples());
    put_number(good_bucket());
    for (int k = 0; k < TRACKED; k++)
        put_word(by_slot && k == 3 ? bad_word() : good_word());
    put_configuration(configuration);
    put_end();
}

static int64_t source_size(const struct board *board, int which, bool turned)
{
    struct source source = source_from(board->configuration, which);
    int64_t sign = turned ? -1 : 1;

    return size_of(source_value(&source, sign * board->size[S1], sign * board->size[S3]));
}

/* SQUELCH at the root of a source or beside it, IRMSOFFS and POFFS that leave something or nothing of one. */
static void lessen(const struct board *board, int64_t value[8])
{
    bool turned = chance(50);
    int64_t near = source_size(board, (int)draw(SOURCES), turned);
    int64_t off = PICK(0, 0, 0, 1, near / 2, near - 1, near);
    int64_t root = off > 0 && off < near ? root_down(near * near - off * off) : near;

    value[5] = at_most(at_least(off, 0), HIGHEST);
    value[6] = at_most(at_least(PICK(0, root, root, root + 1, root + 1, root - 1, near), 0), HIGHEST);
    value[7] = at_most(at_least(PICK(0, 0, 0, 1, near, near - 1, near / 2), 0), HIGHEST);
}

static void put_board_card(const struct board *board)
{
    int64_t value[8] = {0, 0, ONE, ONE, 0, 0, 0, 0};

    value[4] = PICK(0, 0, 0, 1, 2048, 2048, 4095, between(0, 4095));
    if (board->kind == STEADY && chance(85))
        lessen(board, value);
    if (chance(board->kind == STEADY ? 10 : 40)) {
        value[0] = PICK(0, 1, -1, 1000);
        value[1] = PICK(0, 1, 1, -1, -1, -1000, HIGHEST, LOWEST);
        value[2] = PICK(ONE, ONE * 2, ONE / 2);
        value[3] = PICK(ONE, ONE + 1, ONE / 2 * 3, ONE * 2, ONE / 2, between(ONE / 2, ONE * 2));
    }
    if (board->kind == FAR && chance(60))
        value[4] = 0;
    put_card(value, (int)draw(2));
}

/* Both inputs such that a source comes to an end of the range or so, where its multipliers allow it. */
static void aim_far(const struct board *board, int64_t *s1, int64_t *s3)
{
    struct source source = source_from(board->configuration, (int)draw(SOURCES));
    int64_t end = chance(50) ? HIGHEST : LOWEST, near = end + PICK(0, 0, 1, 1, -1, -1, 2, -2, 9, -9);
    int64_t sum = source.halvings ? 2 * near + (int64_t)draw(2) : near;

    *s1 = PICK(0, HIGHEST, LOWEST, LOWEST / 2, between(LOWEST, HIGHEST));
    *s3 = PICK(0, HIGHEST, LOWEST, LOWEST / 2, between(LOWEST, HIGHEST));
    if (source.m3 == 0 && source.m1 != 0)
        *s1 = clipped(sum / source.m1);
    else if (source.m1 == 0 && source.m3 != 0)
        *s3 = clipped(sum / source.m3);
    else if (source.m1 != 0 && chance(50))
        *s3 = clipped((sum - source.m1 * *s1) / source.m3);
    else if (source.m1 != 0)
        *s1 = clipped((sum - source.m3 * *s3) / source.m1);
}

/* The lowest voltage, half a range and the highest: then P shows a current to the unit, with its sign. */
static int64_t any_voltage(void)
{
    return PICK(LOWEST, LOWEST, LOWEST, HIGHEST, -LOWEST / 2, LOWEST / 2);
}

static void fill(const struct board *board, int64_t sample[SLICES][LONGEST], int64_t k)
{
    int64_t sign = chance(50) ? 1 : -1, most = PICK(1, 3, 9, 1000);

    sample[V][k] = any_voltage();
    if (board->kind == FEW) {
        sample[S1][k] = between(-most, most);
        sample[S3][k] = between(-most, most);
    } else if (board->kind == FAR) {
        aim_far(board, &sample[S1][k], &sample[S3][k]);
    } else if (board->kind == STEADY) {
        for (int which = 0; which < SLICES; which++)
            sample[which][k] = sign * board->size[which];
    } else {
        for (int which = 0; which < SLICES; which++)
            sample[which][k] = between(LOWEST, HIGHEST);
    }
}

/* Mostly the rest of the interval, or one sample more or less. */
static void put_samples(struct board *board)
{
    int64_t sample[SLICES][LONGEST];
    int64_t left = board->n - board->taken, count = PICK(left, left, left, left, left + board->n, left + 1, left - 1);

    for (int64_t k = 0; k < count; k++)
        fill(board, sample, k);
    put_even_block(sample[V], sample[S1], sample[S3], count);
    board->closed = board->closed || count >= left;
    board->taken = (board->taken + count) % board->n;
}

/* Two words that stand next to each other, or one word and the next. */
static void put_pair_poll(void)
{
    static const int word[] = {0x3E, 0x46, 0x4B, 0x4E, 0x65, 0x8B, 0x3F, 0x8F, 0x95};
    int address = 3 * word[chance(85) ? draw(6) : draw(9)];
    struct packet packet = {
        {0xAA, 7, 0xA3, (unsigned char)(address % 256), (unsigned char)(address / 256), 0xE6}, 7, 9};

    packet_sum(&packet);
    put_poll(&packet, 255);
}

static void put_read(int port)
{
    put_step("read", port);
    put_address(register_address((int)(chance(88) ? between(1, PLAIN - 1) : (int64_t)draw(REGISTERS))));
    put_end();
}

static void put_look(const struct board *board)
{
    int port = (int)draw(2);

    if (!board->closed && chance(90))
        return;
    put_step("hold", port);
    put_end();
    for (int64_t reads = between(2, 6); reads > 0; reads--)
        put_read(port);
    if (chance(40))
        put_pair_poll();
}

/* Whatever is refused or empty leaves both sources as they are. */
static void put_nothing(void)
{
    static const char *const nothing[] = {
        "block 0 | 0 | 8388608", "block 0 | 8388608 | 0",   "block -8388609 | 0 | 0",
        "block 1 | 1 |",         "block 1 | 1 1 | 1",       "block | 1 | 1",
        "block 1 1 | 1 1 | 1",   "block 1 | 8388608 | 1 1", "block | |",
        "block 1 | 1",           "block 1 | 1 | 1 | 1",     "block 5 5 | 5 5 | 5 -8388609"};

    if (chance(40)) {
        put_refused_start();
        return;
    }
    fputs(nothing[draw(sizeof nothing / sizeof nothing[0])], stdout);
    put_end();
}

static struct board any_board(void)
{
    struct board board = {.n = PICK(1, 1, 1, 2, 2, 3, 4)};
    int64_t few = between(2, 60), large = between(61, HIGHEST);

    board.kind = (enum kind)PICK(FEW, FEW, FAR, FAR, STEADY, STEADY, ANYTHING);
    board.configuration = chance(65) ? between(0, 255) : good_configuration();
    board.size[V] = PICK(HIGHEST, -LOWEST / 2, -HIGHEST);
    board.size[S1] = PICK(few, few, few, 5, -7, large);
    board.size[S3] = PICK(few, -few, few + 1, few - 1, few * 2, -few - 1, 0, between(-60, 60));
    return board;
}

static void put_board(int64_t rounds)
{
    struct board board = any_board();

    put_board_start(&board);
    if (chance(25))
        put_refused_start();
    put_board_card(&board);
    for (; rounds > 0; rounds--) {
        put_samples(&board);
        if (chance(15))
            put_nothing();
        put_look(&board);
        if (chance(30))
            put_board_card(&board);
    }
}

/* Lengths and samples are judged before there is a card. */
static void put_without_card(void)
{
    static const char *const line[] = {
        "block 8388608 | 0 |",          "block | 8388608 | 8388608", "block 1 | 1 | 1 8388608",
        "block 8388608 | 0 | 0",        "block 0 | 8388608 | 0",     "block 0 | 0 | 8388608",
        "block 0 0 | 0 0 | 0 -8388609", "block 0 | 0 | 0",           "block | |"};

    fputs("start 1 1 0 0 0 0 0 0", stdout);
    put_configuration(good_configuration());
    put_end();
    for (int64_t lines = between(2, 5); lines > 0; lines--) {
        fputs(line[draw(sizeof line / sizeof line[0])], stdout);
        put_end();
    }
}

void put_sources(void)
{
    for (int64_t boards = between(6, 9); boards > 0; boards--)
        put_board(between(3, 6));
    if (chance(60))
        put_without_card();
}

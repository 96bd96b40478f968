/* registers.c: finds registers by their word and byte addresses. */
#include "registers.h"

enum { MIN1_WORD = 0x71, MAX1_WORD = 0x77 };

static const int64_t plain_word[PLAIN] = {
    [VA_RMS] = 0x2B,          [OF_IA + RMS] = 0x3E, [OF_IA + PEAK] = 0x46,  [OF_IA + WATT] = 0x4B,
    [OF_IA + VA] = 0x4E,      [OF_IA + PF] = 0x65,  [OF_IA + CREST] = 0x8B, [OF_IA + POS_CNT] = 0x8F,
    [OF_IA + NEG_CNT] = 0x92, [OF_IB + RMS] = 0x3F, [OF_IB + PEAK] = 0x47,  [OF_IB + WATT] = 0x4C,
    [OF_IB + VA] = 0x4F,      [OF_IB + PF] = 0x66,  [OF_IB + CREST] = 0x8C, [OF_IB + POS_CNT] = 0x95,
    [OF_IB + NEG_CNT] = 0x98,
};

static int plain_from_word(int64_t word)
{
    for (int which = 0; which < PLAIN; which++)
        if (plain_word[which] == word)
            return which;
    return NO_SUCH;
}

int slot_from_word(int64_t word)
{
    int which = plain_from_word(word);

    if (word == 0)
        return OFF;
    return which < TRACKABLE ? which : NO_SUCH;
}

static int read_tracked(const int64_t *tracked, const int slot[SLOTS], int64_t which, int64_t *value)
{
    if (slot[which] == OFF)
        return 17;
    *value = tracked[which];
    return 0;
}

int register_read(const struct registers *registers, const int slot[SLOTS], int64_t byte_address, int64_t *value)
{
    int64_t word = byte_address / 3;
    int which = plain_from_word(word);

    if (byte_address % 3 != 0)
        return 16;
    if (word >= MIN1_WORD && word < MIN1_WORD + SLOTS)
        return read_tracked(registers->low, slot, word - MIN1_WORD, value);
    if (word >= MAX1_WORD && word < MAX1_WORD + SLOTS)
        return read_tracked(registers->high, slot, word - MAX1_WORD, value);
    if (which == NO_SUCH)
        return 16;
    *value = registers->plain[which];
    return 0;
}

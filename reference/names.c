/* names.c: finds fields and registers by their names in documents 01 and 02. */
#include "names.h"

#include <string.h>

struct name {
    const char *name;
    int64_t number;
};

static const struct name field[] = {
    {"VOFFS", 1}, {"IOFFS", 2}, {"VGAIN", 3}, {"IGAIN", 4}, {"PHASE", 5}, {"IRMSOFFS", 6}, {"SQUELCH", 7}, {"POFFS", 8},
};

static const struct name word[] = {
    {"VA_RMS", 0x2B},     {"IA_RMS", 0x3E},     {"IA_PEAK", 0x46},    {"WATT_A", 0x4B},     {"VA_A", 0x4E},
    {"PFA", 0x65},        {"IA_CREST", 0x8B},   {"PA_POS_CNT", 0x8F}, {"PA_NEG_CNT", 0x92}, {"IB_RMS", 0x3F},
    {"IB_PEAK", 0x47},    {"WATT_B", 0x4C},     {"VA_B", 0x4F},       {"PFB", 0x66},        {"IB_CREST", 0x8C},
    {"PB_POS_CNT", 0x95}, {"PB_NEG_CNT", 0x98}, {"MIN1", 0x71},       {"MIN2", 0x72},       {"MIN3", 0x73},
    {"MIN4", 0x74},       {"MIN5", 0x75},       {"MIN6", 0x76},       {"MAX1", 0x77},       {"MAX2", 0x78},
    {"MAX3", 0x79},       {"MAX4", 0x7A},       {"MAX5", 0x7B},       {"MAX6", 0x7C},
};

static int64_t number_of(const struct name *names, size_t count, const unsigned char *name, size_t length)
{
    for (size_t k = 0; k < count; k++)
        if (strlen(names[k].name) == length && memcmp(names[k].name, name, length) == 0)
            return names[k].number;
    return 0;
}

int64_t field_named(const unsigned char *name, size_t length)
{
    return number_of(field, sizeof field / sizeof field[0], name, length);
}

int64_t register_named(const unsigned char *name, size_t length)
{
    return number_of(word, sizeof word / sizeof word[0], name, length);
}

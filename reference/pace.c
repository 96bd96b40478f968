/* pace.c: the program reference-pace [BLOCKS [W]]: feeds one block of 4,096 samples so often (100 if not said), with W
   samples in half a cycle (40 if not said) and a configuration by which IA is S1 and IB is S3, and prints VA_RMS, the
   eight registers of IA and of IB, and the interval number. */
#include <inttypes.h>
#include <stdio.h>
#include <stdlib.h>

#include "module.h"

enum { IA_S1_IB_S3 = 0x96 };

static int32_t sample[SLICES][BLOCK_MOST];

static int32_t next_sample(uint32_t *x)
{
    *x = *x * UINT32_C(1664525) + UINT32_C(1013904223);
    return (int32_t)(*x / 256) - 8388608;
}

/* V, S1 and S3 in turn. */
static void make_block(void)
{
    uint32_t x = 1;

    for (size_t k = 0; k < BLOCK_MOST; k++)
        for (int which = 0; which < SLICES; which++)
            sample[which][k] = next_sample(&x);
}

/* 0, or the first refusal. */
static int prepare(struct module *module, int64_t half_cycle)
{
    static const int64_t slots_off[SLOTS];
    static const int64_t value[FIELDS] = {17, -5, 2097152, 1900000, 1000, 3, 10, 2};
    const struct alarm_settings settings = {half_cycle, 4000000, 6000000, SAG};
    int refusal = module_start(module, 400, INT64_C(0x0001AFC8BB4C), slots_off, &settings, IA_S1_IB_S3);

    if (refusal == 0)
        refusal = module_open(module, 0, (const unsigned char *)"0417", 4);
    for (int k = 0; k < FIELDS && refusal == 0; k++)
        refusal = module_write(module, 0, k + 1, value[k]);
    return refusal == 0 ? module_commit(module, 0) : refusal;
}

static int print_registers(struct module *module)
{
    static const int64_t word[PLAIN] = {0x2B, 0x3E, 0x46, 0x4B, 0x4E, 0x65, 0x8B, 0x8F, 0x92,
                                        0x3F, 0x47, 0x4C, 0x4F, 0x66, 0x8C, 0x95, 0x98};
    struct held held;
    int refusal = module_hold(module, 0, &held);

    for (int k = 0; k < PLAIN && refusal == 0; k++) {
        int64_t value = 0;

        refusal = module_read(module, 0, 3 * word[k], &value);
        printf("%" PRId64 " ", value);
    }
    if (refusal == 0)
        printf("%" PRIu32 "\n", held.number);
    return refusal;
}

int main(int argc, char **argv)
{
    static struct module module;
    const struct slice slice[SLICES] = {{sample[V], BLOCK_MOST}, {sample[S1], BLOCK_MOST}, {sample[S3], BLOCK_MOST}};
    long blocks = argc > 1 ? strtol(argv[1], NULL, 10) : 100;
    int refusal = prepare(&module, argc > 2 ? strtol(argv[2], NULL, 10) : 40);

    make_block();
    for (long k = 0; k < blocks && refusal == 0; k++)
        refusal = module_block(&module, slice);
    if (refusal == 0)
        refusal = print_registers(&module);
    return refusal == 0 ? 0 : 1;
}

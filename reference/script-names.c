/* script-names.c: names that are none, and names in the wrong place. */
#include <stdio.h>
#include <string.h>

#include "random.h"
#include "script.h"

static const char *any_name(void)
{
    return chance(40) ? field_name((int)between(1, 8)) : register_name((int)draw(REGISTERS));
}

/* With one letter small, or all. */
static void put_small(const char *name)
{
    size_t one = draw(strlen(name));
    bool all = chance(50);

    for (size_t k = 0; name[k] != '\0'; k++)
        putchar((all || k == one) && name[k] >= 'A' && name[k] <= 'Z' ? name[k] - 'A' + 'a' : name[k]);
}

/* With a byte more, anywhere; a zero byte too. */
static void put_longer(const char *name)
{
    size_t at = chance(70) ? strlen(name) : draw(strlen(name));

    fwrite(name, 1, at, stdout);
    putchar("\0\0\t\r_S01-x"[draw(10)]);
    fputs(name + at, stdout);
}

static void put_shorter(const char *name)
{
    size_t without = chance(60) ? strlen(name) - 1 : draw(strlen(name));

    fwrite(name, 1, without, stdout);
    fputs(name + without + 1, stdout);
}

static void put_nearly_name(void)
{
    static const char *const no_name[] = {
        "MIN7",   "MIN0",  "MAX7",     "MAX0", "MIN",  "MAX",     "MIN10", "OFF",   "VB_RMS",   "IB",
        "WATT",   "PB",    "IB_RMS_A", "S1",   "S3",   "W",       "GAIN",  "VA",    "IC_CREST", "PB_POS_COUNT",
        "WATT-B", "0xPFA", "-PFA",     "0PFA", "PFA|", "VA_RMS,", "FIELD", "MIN 1", "min1",     "Max2"};
    uint64_t how = draw(6);
    int slot = (int)PICK(0, 7, 7, 8, 10);

    if (how == 0)
        put_small(any_name());
    else if (how == 1)
        put_longer(any_name());
    else if (how == 2)
        put_shorter(any_name());
    else if (how == 3)
        fputs(no_name[draw(sizeof no_name / sizeof no_name[0])], stdout);
    else if (how == 4)
        printf("%s%d", chance(50) ? "MIN" : "MAX", slot);
    else
        fputs(any_name(), stdout);
}

/* The name stands where a name may, or where only a number may. */
void put_odd_name(void)
{
    static const char *const form[] = {
        "read 0 %s",
        "read 1 %s",
        "write 0 %s 2097152",
        "write 1 %s 1",
        "write 0 %s 0",
        "start 2 2 %s 0 0 0 0 0",
        "start 2 2 0 0 0 0 0 %s",
        "read %s 0xBA",
        "write 0 1 %s",
        "hold %s",
        "block %s | 1 | 1",
        "block 1 | 1 | %s",
        "start 2 2 0 0 0 0 0 0 1 0 0 0 %s",
        "start %s 2 0 0 0 0 0 0",
    };
    const char *step = form[chance(80) ? draw(5) : draw(sizeof form / sizeof form[0])];
    const char *gap = strchr(step, '%');

    fwrite(step, 1, (size_t)(gap - step), stdout);
    put_nearly_name();
    fputs(gap + 2, stdout);
    put_end();
}

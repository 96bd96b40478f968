/* script-block-lines.c: lines that are nearly a block, or hardly one: bars that lack or are too many, spaces, samples
   that are none, and as many samples as a line may have. */
#include <stdio.h>

#include "random.h"
#include "script.h"

enum { FULL_SLICE = 8192 };

static const char *const line[] = {
    "block",
    "block ",
    "block  |",
    "block  | |",
    "block | ",
    "block | | ",
    "block | |  ",
    "block |  |",
    "block||",
    "block| |",
    "block ||",
    "block ||1",
    "block 1",
    "block 1 2",
    "block 1 2 3",
    "block 1 | 2",
    "block 1 |2 | 3",
    "block 1 | 2 |3",
    "block 1| 2 | 3",
    "block 1 | 2| 3",
    "block 1 |2",
    "block 1 | 2 | 3 |",
    "block 1 | 2 | 3 | 4",
    "block | | |",
    "block | |",
    "block | |",
    "block 1  | 2 | 3",
    "block 1 |  2 | 3",
    "block 1 | 2 |  3",
    "block 1 | 2  | 3",
    "block 1 | 2 | 3 ",
    "block  1 | 2 | 3",
    "block 1 | x",
    "block 1 | x | 1",
    "block 1 | 1 | x",
    "block x | 1 | 1",
    "block 1 | 1 | 1 x",
    "block |1",
    "block | |1",
    "block|",
    "blocks | |",
    "block 2147483648 | 1 | 1",
    "block 1 | -2147483649 | 1",
    "block 1 | 1 | 2147483648",
    "block 1 | 1 | -2147483649",
    "block 1 |",
    "block 1 | |",
    "block | 1",
    "block | 1 |",
    "block | | 1",
    "block 1 | 1 |",
    "block 1 | | 1",
    "block | 1 | 1",
    "block |",
    "block 0x7 | 0x7 | 0X7",
    "block 1 2 | 1 2 3 | 1 2",
    "block 1 2 | 1 2 | 1 2 3",
    "block 1 2 3 | 1 2 | 1 2",
    "block 1 | 8388608 | 1 1",
    "block 8388608 | 1 | 1 1",
    "block 1 | 1 | 8388608",
    "block 1 | 1 | -8388609",
    "block 1 x",
    "block 1 VA_RMS | 1 | 1",
    "block 1 | 1 | IB_RMS",
    "block 1 ",
    "block 1 | 1 ",
    "block 1 9223372036854775808 | 1 | 1",
    "block 1\r | 1 | 1",
    "block 1 |\r 1 | 1",
    "block 1 | 1 |\r 1",
    "block 1 | 1\r | 1",
    "block |\r",
    "block | |\r",
};

void put_odd_block(void)
{
    fputs(line[draw(sizeof line / sizeof line[0])], stdout);
    put_end();
}

/* A block with 8,192 samples in a slice, and something behind them. */
void put_full_slice(void)
{
    static const char *const before[] = {"block", "block |", "block | |", "block 1 |", "block 1 | 1 |"};
    static const char *const behind[] = {"",       " ",      " 1",       " x",         " |",   " |1",
                                         " | |1",  " | | 1", " | 1 | 1", " | 1",       " x |", " | |",
                                         " | | |", " | 1 |", "|",        " 2147483648"};

    fputs(before[draw(sizeof before / sizeof before[0])], stdout);
    for (int k = 0; k < FULL_SLICE; k++)
        fputs(" 1", stdout);
    fputs(behind[draw(sizeof behind / sizeof behind[0])], stdout);
    put_end();
}

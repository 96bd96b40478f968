/* script-oddities.c: lines that are no step, or hardly one; lines without an answer; lines at their ends of length. */
#include <stdio.h>
#include <string.h>

#include "random.h"
#include "script.h"

enum { LONGEST_LINE = 131071 };

/* Numbers that are none, and some that are. */
static const char *const number[] = {
    "+5",
    "0x",
    "0X10",
    "-0x5",
    "--5",
    "5-",
    "1e3",
    "0xg",
    "0x-1",
    "1.0",
    "",
    "-",
    "a",
    "0b1",
    "1_000",
    "1,000",
    "9223372036854775808",
    "-9223372036854775809",
    "0x8000000000000000",
    "0xFFFFFFFFFFFFFFFF",
    "0x10000000000000000",
    "340282366920938463463374607431768211456",
    "18446744073709551616",
    "\t1",
    "1\t",
    "1\r",
    "9223372036854775807",
    "-9223372036854775808",
    "0x7fffffffffffffff",
    "0x00000000000000000000000000000000001",
    "-0",
    "-00",
    "00",
    "0x0",
    "00000000000000000000000000000000000000001",
    "0xAbCdEf",
    "-2147483648",
    "2147483647",
    "2147483648",
    "-2147483649",
    "0x80000000",
    "|",
    "0x ",
    " 1",
    "VGAIN",
    "IA_RMS",
    "MIN1",
    "OFF",
    "1\r2",
};

/* Whole lines. */
static const char *const line[] = {
    " ",
    "  ",
    "\t",
    "\r",
    "x",
    "ok",
    "START 1 1 0 0 0 0 0 0",
    "start",
    "start 1",
    "start 1 1 0 0 0 0 0",
    "start 1 1 0 0 0 0 0 0 0",
    "start 1 1 0 0 0 0 0 0 ",
    " start 1 1 0 0 0 0 0 0",
    "start  1 1 0 0 0 0 0 0",
    "start 1 1 0 0 0  0 0 0",
    "open",
    "open ",
    "open 0",
    "open 0\t0417",
    "open  0 0417",
    "open x 0417",
    "Open 0 0417",
    "open 0  0417",
    "opens 0 0417",
    "ope 0 0417",
    "open0 0417",
    "write",
    "write 0",
    "write 0 1",
    "write 0 1 ",
    "write 0 1 5 ",
    "write 0 1 5 6",
    "write  0 1 5",
    "write 0  1 5",
    "writ 0 1 5",
    "write 0 1 5\r",
    "commit",
    "commit ",
    "commit 0 ",
    "commit 0 1",
    "commit  0",
    "commit0",
    "commits 0",
    "commit 0\r",
    "drop",
    "drop x",
    "drop 0 0",
    "hold",
    "hold ",
    "hold 0 0",
    "hold 0x",
    "hold 0\t",
    "hold -",
    "read",
    "read 0",
    "read 0 0x81 ",
    "read 0 0x81 1",
    "read 0  0x81",
    "read  0 0x81",
    "read 0,0x81",
    "|",
    "0",
    "hold 0|",
    "# | ",
    " # not a comment",
    "\xc3\xa9",
    "quit",
    "open 0 #",
    "drop 0 # x",
    "help",
    "help",
    "help ",
    "help 0",
    "help help",
    "Help",
    "hel",
    "helps",
    "cards ",
    "cards 0",
    "card",
    "cardss",
    "Cards",
    " cards",
    "cards\t",
    "?",
    "hold 0 x y",
    "hold x 0",
    "start x",
    "start 1 1 x",
    "start 1 1 0 0 0 0 0 x",
    "start 1 1 0 0 0 0 0 0 x",
    "start IA_RMS 1 0 0 0 0 0 0",
    "open x",
    "write x VGAIN",
    "write 0 x",
    "write 0 VGAIN",
    "write 0 VGAIN ",
    "write 0 VGAIN x",
    "write 0 VGAIN VGAIN",
    "write VGAIN VGAIN 1",
    "read x x",
    "read 0 x 1",
    "read IA_RMS",
    "read IA_RMS 0",
    "start 1 1 0 0 0 0 0 0 1 0 0 0 x",
    "start 1 1 0 0 0 0 0 0 1 0 0 0 ",
    "start 1 1 0 0 0 0 0 0 1 0 0 0  150",
    "start 1 1 0 0 0 0 0 0 1 0 0 0 256 x",
    "start 1 1 0 0 0 0 0 0 1 0 0 0 256",
    "start 1 1 0 0 0 0 0 0 1 0 0 0 -1",
    "start 1 1 0 0 0 0 0 0 1 0 0 0 150 0",
    "start 1 1 0 0 0 0 0 0 1 0 0 0 150 ",
    "start 1 1 0 0 0 0 0 0 1 0 0 0 9223372036854775808",
    "start 1 1 0 0 0 0 0 0 1 0 0 0 IA_RMS",
    "start 1 1 IB_RMS 0 0 0 0 0",
    "start 1 1 0 0 0 0 0 PB_NEG_CNT 1 0 0 0 150",
    "hold 0\r\r",
    "hold\r 0",
    "hold \r0",
    "ho\rld 0",
    "\rhold 0",
    "cards\r\r",
    "\r\r",
    "\r#",
    " \r",
    "write 0 VGAIN\r 1",
    "open 0 04\r17",
    "open 1 \r",
};

/* A step with one odd number in it. */
static void put_odd_number(void)
{
    static const char *const form[] = {
        "start %s 1 0 0 0 0 0 0",
        "start 2 %s 0 0 0 0 0 0",
        "start 2 2 0 0 0 0 0 %s",
        "start 2 2 0 %s 0 0 0 0",
        "start 2 2 0 0 0 0 0 0 1 0 0 0 %s",
        "open %s 0417",
        "write %s 1 0",
        "write 0 %s 0",
        "write 0 1 %s",
        "write 1 8 %s",
        "commit %s",
        "drop %s",
        "hold %s",
        "read %s 0x81",
        "read 0 %s",
        "block %s | 1 | 1",
        "block 1 | %s | 1",
        "block 1 | 1 | %s",
        "block 1 %s | 1 2 | 1 2",
        "block 1 2 | %s 1 | 1 2",
        "block 1 2 | 1 2 | %s 1",
        "block 1 2 | 1 2 | 1 %s",
    };
    size_t starts = chance(10) ? 0 : 5; /* a start ends what went before */
    size_t which = starts + draw(sizeof form / sizeof form[0] - starts);
    const char *gap = strchr(form[which], '%');

    fwrite(form[which], 1, (size_t)(gap - form[which]), stdout);
    fputs(number[draw(sizeof number / sizeof number[0])], stdout);
    fputs(gap + 2, stdout);
    put_end();
}

/* Lines that are steps, to be spoiled. */
static const char *const good[] = {"hold 0",
                                   "commit 1",
                                   "drop 0",
                                   "write 0 3 2097152",
                                   "read 1 0x1A1",
                                   "block 1 -2 | 3 4 | 5 6",
                                   "block | |",
                                   "open 1 0417",
                                   "write 1 1 -8388",
                                   "start 3 9 0x2B 0 0x8B 0 0 75",
                                   "hold 0x1",
                                   "cards",
                                   "help",
                                   "read 0 PA_POS_CNT",
                                   "write 0 IGAIN 2097152",
                                   "read 1 MAX1",
                                   "read 0 IB_CREST",
                                   "start 3 9 0 0 0 0 0 0 1 0 0 0 150"};

/* A good line with one byte too many, too few, or another. */
static void put_spoiled(void)
{
    const char *line = good[draw(sizeof good / sizeof good[0])];
    size_t length = strlen(line), at = chance(30) ? length : draw(length);
    char byte = " -+0x|\t\r#9aF\0 \r"[draw(16)];

    fwrite(line, 1, at, stdout);
    if (chance(70))
        putchar(byte);
    if (at < length)
        fputs(line + at + (chance(50) ? 1 : 0), stdout);
    put_end();
}

/* A good line that ends before one of its items, or goes on behind the last. */
static void put_cut_or_longer(void)
{
    const char *line = good[draw(sizeof good / sizeof good[0])];
    const char *space = strchr(line + draw(strlen(line)), ' ');

    fwrite(line, 1, space ? (size_t)(space - line) : strlen(line), stdout);
    if (!space)
        fputs(chance(50) ? " " : " 0", stdout);
    put_end();
}

void put_oddity(void)
{
    size_t which = draw(sizeof line / sizeof line[0]);

    if (chance(25))
        put_odd_block();
    else if (chance(35))
        put_odd_number();
    else if (chance(20))
        put_cut_or_longer();
    else if (chance(40))
        put_spoiled();
    else if (chance(8))
        fwrite("hold\0 0\n", 1, 8, stdout);
    else if (chance(8))
        fwrite("hold 0\0\n", 1, 8, stdout);
    else {
        fputs(line[which], stdout);
        put_end();
    }
}

void put_silence(void)
{
    static const char *const silent[] = {"",   "#",   "# a comment", "#start 1 1 0 0 0 0 0 0", "##", "# \t\xff",
                                         "\r", "#\r", "# \r x"};

    fputs(silent[draw(sizeof silent / sizeof silent[0])], stdout);
    put_end();
}

static void put_times(char byte, size_t count)
{
    while (count-- > 0)
        putchar(byte);
}

/* The beginning of a line, and then one byte as often as makes it this long, without a carriage return behind it. */
void put_long_line(void)
{
    static const char *const beginning[] = {"open 0 ", "open 1 4", "open 7 ", "hold 0",        "hold 0x",
                                            "# ",      "#",        "x",       "block 1 | 1 | "};
    const char *start = beginning[draw(sizeof beginning / sizeof beginning[0])];
    size_t length = (size_t)PICK(LONGEST_LINE - 1, LONGEST_LINE, LONGEST_LINE, LONGEST_LINE + 1, LONGEST_LINE + 1,
                                 LONGEST_LINE + 2, 2 * LONGEST_LINE + 2, 300000);

    fputs(start, stdout);
    if (chance(50))
        put_times('0', length - strlen(start));
    else {
        put_times('0', length - strlen(start) - 2);
        fputs(chance(50) ? " 0" : "01", stdout);
    }
    puts(chance(50) ? "\r" : "");
}

void put_last_line(void)
{
    static const char *const last[] = {"hold 0", "hold 1\n",  "hold 0\r",   "hold 1\r\n", "cards\r",
                                       "\r",     "cards\r\r", "hold 0\n\r", "hold \r",    "# the end\r"};

    fputs(last[draw(sizeof last / sizeof last[0])], stdout);
}

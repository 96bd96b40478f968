/* words.c: the words of CONSOLE.md's tables. */
#include "words.h"

const char *unread_words(enum unread unread)
{
    static const char *const words[] = {
        [NONE] = "",
        [TOO_LONG] = "longer than 131,071 bytes",
        [NO_STEP] = "no such step",
        [ITEM_MISSING] = "an item missing",
        [NO_NUMBER] = "not a 64-bit number",
        [NO_FIELD] = "neither a 64-bit number nor a field's name",
        [NO_REGISTER] = "neither a 64-bit number nor a register's name",
        [MORE_ITEMS] = "more items than the step has",
        [FEW_BARS] = "fewer than two bars",
        [MORE_SAMPLES] = "more than 8,192 samples in a slice",
        [NO_SAMPLE] = "not a 32-bit number",
        [NO_ROOM] = "not a number from 0 to 255",
        [NO_BYTE] = "not two hexadecimal digits",
        [MORE_BYTES] = "more than 4,096 bytes",
    };

    return words[unread];
}

const char *refusal_words(int refusal)
{
    static const char *const words[] = {
        [1] = "not 1 to 12 digits",
        [5] = "blocks unequal, or over 4,096 samples",
        [6] = "a sample outside the 24-bit range",
        [7] = "a start setting out of range",
        [8] = "no such port",
        [9] = "the port is open already",
        [10] = "the port is not open",
        [11] = "no such field",
        [12] = "a value outside its range",
        [13] = "a field not written",
        [14] = "no interval has closed yet",
        [15] = "nothing is held on this port",
        [16] = "no register has this byte address",
        [17] = "MIN or MAX of a slot that is off",
        [18] = "no card in force and none waits",
        [21] = "the buffer is too short",
    };

    return words[refusal];
}

const char help_lines[] =
    "# start N B SLOT SLOT SLOT SLOT SLOT SLOT [W [VSAG [VSURGE [STICKY [CONFIG]]]]]: N samples an interval, energy "
    "buckets of B, six registers to track or 0\n"
    "#   W samples in half a cycle, sag and surge levels or 0 (off), and the alarms that stay set: a mask as of reset; "
    "left out: 1 0 0 0\n"
    "#   CONFIG, 0 to 255, makes the sources IA and IB of S1 and S3: 0x96 has IA S1 and IB S3; left out: 0, by which "
    "each is half of -S1 - S3\n"
    "# open PORT SERIAL: begins a card; ports are 0 and 1\n"
    "# write PORT FIELD VALUE: VOFFS IOFFS VGAIN IGAIN PHASE IRMSOFFS SQUELCH POFFS, or 1 to 8\n"
    "# commit PORT: the card is whole and waits for the next interval\n"
    "# drop PORT: the card is forgotten\n"
    "# block V | S1 | S3: samples of the voltage and of the two current inputs, at most 4,096 a slice\n"
    "# reset MASK: clears alarms: 0x200000 sag, 0x200 surge, 0x200200 both\n"
    "# hold PORT: keeps the last closed interval; answers its number, its card's serial, how many of its samples of V, "
    "of S1 and of S3 were clipped, and both alarms as they are now\n"
    "# read PORT REGISTER: of what is held; a name (VA_RMS, WATT_A, WATT_B, PA_POS_CNT, MIN1 ..) or a byte address\n"
    "# poll ROOM BYTES: a packet of the serial line, its bytes as two hexadecimal digits each; answers the reply's "
    "bytes; ROOM bytes are lent for it\n"
    "# cards: the serials of the card in force and of the one that waits\n"
    "# help: these lines\n"
    "# A terminal cuts a pasted line at 4,095 bytes: send long blocks from a file, or as several blocks.\n"
    "# Numbers are decimal, or hexadecimal behind 0x. One space parts two items. A line that begins with # is a comment.\n";

/* script-poll-lines.c: lines with a packet, with as many bytes as a line may have and more, and lines that are nearly
   one. */
#include <stdio.h>

#include "random.h"
#include "script.h"

/* How a packet's digits above 9 are written. */
enum letters { CAPITAL, SMALL_ONES, MIXED, LETTERS };

static void put_digit(int digit, enum letters letters)
{
    bool small = letters == SMALL_ONES || (letters == MIXED && chance(50));

    putchar((small ? "0123456789abcdef" : "0123456789ABCDEF")[digit]);
}

static void put_byte(int byte, enum letters letters)
{
    putchar(' ');
    put_digit(byte / 16, letters);
    put_digit(byte % 16, letters);
}

static void put_no_byte(void)
{
    static const char *const none[] = {"", "", "A", "AAA", "zz", "-1", "0x"};

    printf(" %s", none[draw(sizeof none / sizeof none[0])]);
}

/* Now and then an item that is no byte, mostly behind the last, or another room, makes it a line that is not read. */
void put_poll(const struct packet *packet, int64_t room)
{
    enum letters letters = (enum letters)PICK(CAPITAL, CAPITAL, SMALL_ONES, MIXED);
    size_t spoilt = chance(60) ? packet->length : (size_t)draw(packet->length + 1);
    bool spoils = chance(3);

    fputs("poll", stdout);
    put_number(chance(2) ? PICK(-1, -1, 256, 256, -room - 1, bad_number(room)) : room);
    for (size_t k = 0; k <= packet->length; k++) {
        if (spoils && k == spoilt)
            put_no_byte();
        if (k < packet->length)
            put_byte(packet->byte[k], letters);
    }
    put_end();
}

/* Lines about polls that are no step, and a few that are one hardly. */
static const char *const line[] = {
    "poll",
    "poll",
    "poll",
    "poll ",
    "poll  ",
    "poll  255 AA 03 AD",
    "poll 255 ",
    "poll 255  ",
    "poll 255 AA 03 AD ",
    "poll 255 AA  03 AD",
    "poll 255  AA 03 AD",
    "poll 256",
    "poll 256 AA 03 AD",
    "poll 256 x",
    "poll 0x100 AA 03 AD",
    "poll 0x1FF AA 03 AD",
    "poll 0xFF AA 03 AD",
    "poll 0x0000000000000000000ff aa 03 ad",
    "poll 000000000000000000000000255 AA 03 AD",
    "poll -0 AA 03 AE 00",
    "poll -0",
    "poll -1",
    "poll -1 AA 03 AD",
    "poll -255 AA 03 AD",
    "poll 65536 AA 03 AD",
    "poll 4294967296 AA 03 AD",
    "poll 4294967551 AA 03 AD",
    "poll 9223372036854775807 AA 03 AD",
    "poll 9223372036854775808 AA 03 AD",
    "poll 18446744073709551871 AA 03 AD",
    "poll -9223372036854775808 AA 03 AD",
    "poll +255 AA 03 AD",
    "poll 0XFF AA 03 AD",
    "poll 0x AA 03 AD",
    "poll x",
    "poll x x",
    "poll FF AA 03 AD",
    "poll AA 03 AD",
    "poll - AA 03 AD",
    "poll 2.5 AA 03 AD",
    "poll VA_RMS AA 03 AD",
    "poll 255, AA 03 AD",
    "poll 255 A",
    "poll 255 AAA",
    "poll 255 0AA 03 AD",
    "poll 255 AA 3 AD",
    "poll 255 AA 003 AD",
    "poll 255 AA03AD",
    "poll 255 AA 03AD",
    "poll 255 0xAA 0x03 0xAD",
    "poll 255 0x 03 AD",
    "poll 255 AA 03 AG",
    "poll 255 AA 03 GA",
    "poll 255 AA 03 A:",
    "poll 255 AA 03 /A",
    "poll 255 AA 03 @A",
    "poll 255 AA 03 A`",
    "poll 255 AA 03 ag",
    "poll 255 AA 03 -1",
    "poll 255 AA 03 +1",
    "poll 255 AA -0 AD",
    "poll 255 AA 03 1-",
    "poll 255 AA 03 A\r",
    "poll 255 AA 03 AD\r",
    "poll 255 AA\t03 AD",
    "poll\t255 AA 03 AD",
    "poll 255\tAA 03 AD",
    "poll 255 AA,03,AD",
    "poll 255 | AA 03 AD",
    "poll 255 AA 03 AD | 1",
    "poll 255 AA 03 \xff\xff",
    "poll 255 zz 03 A",
    "poll255 AA 03 AD",
    "polls 255 AA 03 AD",
    "pol 255 AA 03 AD",
    "Poll 255 AA 03 AD",
    "POLL 255 AA 03 AD",
    " poll 255 AA 03 AD",
    "poll 1 255 AA 03 AD",
    "read 1 poll",
};

void put_odd_poll(void)
{
    fputs(line[draw(sizeof line / sizeof line[0])], stdout);
    put_end();
}

/* As many items as a poll may have, or one more or less; one of them, mostly near the end, may be no byte. */
void put_long_poll(void)
{
    int64_t items = PACKET_MOST + PICK(-1, 0, 0, 1, 1, 1, 1, 2, 904), first = between(0, items - 1);
    int64_t wrong = chance(50) ? -1 : PICK(items - 1, items - 2, PACKET_MOST, PACKET_MOST - 1, first);

    fputs("poll", stdout);
    put_number(PICK(255, 255, 255, 1, 0, 256));
    for (int64_t k = 0; k < items; k++)
        if (k == wrong)
            put_no_byte();
        else
            put_byte(k == 0 ? 0xAA : 0x03, CAPITAL);
    put_end();
}

/* script-frames.c: what may be wrong with a packet's frame: header, count, sum, bytes that lack or are too many. */
#include <string.h>

#include "random.h"
#include "script.h"

enum { HEADER = 0xAA, FRAME = 3, COUNT_MOST = 255 };

static int sum_before(const struct packet *packet, size_t last)
{
    int sum = 0;

    for (size_t k = 0; k < last; k++)
        sum += packet->byte[k];
    return sum;
}

void packet_sum(struct packet *packet)
{
    if (packet->length > 0)
        packet->byte[packet->length - 1] = (unsigned char)sum_before(packet, packet->length - 1);
}

/* With a sum that fits what it is now, mostly, so that nothing else is wrong with it. */
static void damage_header(struct packet *packet)
{
    packet->byte[0] = (unsigned char)PICK(0xA9, 0xAB, 0x2A, 0x2A, 0xBA, 0x00, 0x55, 0xFF);
    packet->reply = 0;
    if (chance(80))
        packet_sum(packet);
}

static void cut_short(struct packet *packet)
{
    size_t length = packet->length;

    packet->length = chance(50) ? length - 1 : (size_t)draw(length);
    packet->reply = 0;
    if (chance(60))
        packet_sum(packet);
}

/* The count too high: the packet seems cut. */
static void count_higher(struct packet *packet)
{
    size_t length = packet->length;

    if (length == COUNT_MOST)
        return;
    packet->byte[1] =
        (unsigned char)PICK((int64_t)length + 1, (int64_t)length + 1, 255, between((int64_t)length + 1, 255));
    packet->reply = 0;
    packet_sum(packet);
}

/* The count too low: the packet seems to have bytes too many, or the count is below that of a packet with no command.
 */
static void count_lower(struct packet *packet)
{
    int64_t length = (int64_t)packet->length, count = PICK(0, 1, 2, 2, 3, 3, length - 1, length - 1, length - 1);

    packet->byte[1] = (unsigned char)count;
    packet->reply = count >= FRAME && count < length;
    packet_sum(packet);
    if (count >= FRAME && chance(40))
        packet->byte[count - 1] = (unsigned char)sum_before(packet, (size_t)count - 1);
}

/* Also a second packet behind the first, and as many bytes as a line can have. */
static void lengthen(struct packet *packet)
{
    size_t length = packet->length,
           more = (size_t)PICK(1, 1, 1, 2, 3, (int64_t)length, 256, PACKET_MOST - (int64_t)length);

    if (chance(70))
        more = (size_t)between(1, 3);
    if (more == length)
        memcpy(packet->byte + length, packet->byte, length);
    else
        for (size_t k = 0; k < more; k++)
            packet->byte[length + k] = (unsigned char)PICK(0, 0xAA, packet->byte[length - 1], between(0, 255));
    packet->length = length + more;
    packet->reply = 1;
    if (chance(30))
        packet_sum(packet);
}

/* By one, by a bit, or as it is if something is not counted in. */
static void damage_sum(struct packet *packet)
{
    unsigned char *sum = &packet->byte[packet->length - 1];
    int bit = 1 << draw(8);

    *sum = (unsigned char)(*sum + PICK(1, -1, bit, -bit, -0xAA, -packet->byte[1], -0xAA - packet->byte[1], 0xAA, *sum,
                                       -2 * *sum, -*sum));
    packet->reply = 1;
}

static void flip_bit(struct packet *packet)
{
    size_t where = (size_t)draw(packet->length);

    packet->byte[where] ^= (unsigned char)(1 << draw(8));
    packet->reply = where > 1;
}

/* Packets of three bytes and fewer. */
static void make_short(struct packet *packet)
{
    static const struct {
        unsigned char byte[4];
        size_t length, reply;
    } one[] = {{{0}, 0, 0},
               {{0xAA}, 1, 0},
               {{0x00}, 1, 0},
               {{0xAA, 0x00}, 2, 0},
               {{0xAA, 0x01}, 2, 0},
               {{0xAA, 0x02}, 2, 0},
               {{0xAA, 0x03}, 2, 0},
               {{0xAA, 0xAA}, 2, 0},
               {{0xAA, 0x02, 0xAC}, 3, 0},
               {{0xAA, 0x01, 0xAB}, 3, 0},
               {{0xAA, 0x00, 0xAA}, 3, 0},
               {{0xAA, 0x03, 0xAD}, 3, 1},
               {{0xAA, 0x03, 0xAD}, 3, 1},
               {{0xAA, 0x03, 0xAE}, 3, 1},
               {{0xAA, 0x03, 0x00}, 3, 1},
               {{0xAB, 0x03, 0xAE}, 3, 0},
               {{0xAA, 0x04, 0xAE}, 3, 0},
               {{0xAA, 0x03, 0xAD, 0xAD}, 4, 1},
               {{0xAA, 0x03, 0xAD, 0x5A}, 4, 1}};
    size_t which = (size_t)draw(sizeof one / sizeof one[0]);

    memcpy(packet->byte, one[which].byte, sizeof one[which].byte);
    packet->length = one[which].length;
    packet->reply = one[which].reply;
}

void packet_damage(struct packet *packet)
{
    uint64_t what = draw(100);

    if (what < 10)
        damage_header(packet);
    else if (what < 22)
        cut_short(packet);
    else if (what < 32)
        count_higher(packet);
    else if (what < 45)
        count_lower(packet);
    else if (what < 58)
        lengthen(packet);
    else if (what < 76)
        damage_sum(packet);
    else if (what < 84)
        flip_bit(packet);
    else
        make_short(packet);
}

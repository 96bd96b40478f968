/* packet.h: a packet of the serial line and the reply to it (document 004's SSI protocol; document 02, A4). */
#ifndef PACKET_H
#define PACKET_H

#include <stddef.h>

#include "registers.h"

enum { REPLY_MOST = 255, FRAME = 3, DATA_MOST = REPLY_MOST - FRAME }; /* the frame: header, count, sum */

/* Several bytes where registers are sent, one where there is only a code, none where the line stays silent. */
struct reply {
    unsigned char byte[REPLY_MOST];
    size_t length;
};

/* The reply to a packet. The registers are those of the last closed interval, NULL before the first. */
void packet_reply(struct reply *reply, const unsigned char *packet, size_t length, const struct registers *registers,
                  const int slot[SLOTS]);

#endif

/* registers.h: the register table: words and bytes, and what a closed interval shows. */
#ifndef REGISTERS_H
#define REGISTERS_H

#include <stdint.h>

/* What a source shows, in the table's order. */
enum { RMS, PEAK, WATT, VA, PF, CREST, POS_CNT, NEG_CNT, RESULTS };

/* All but MIN and MAX: VA_RMS, the eight of IA, the eight of IB. The first seven may be tracked. */
enum { VA_RMS, OF_IA, OF_IB = OF_IA + RESULTS, PLAIN = OF_IB + RESULTS };
enum { TRACKABLE = OF_IA + CREST + 1, SLOTS = 6 };

struct registers {
    int64_t plain[PLAIN];
    int64_t low[SLOTS], high[SLOTS]; /* MIN1 to MIN6, MAX1 to MAX6 */
};

/* A slot's setting: the register that it tracks, or OFF. */
enum { OFF = -1, NO_SUCH = -2 };

/* What a slot tracks by this word address, OFF for 0, or NO_SUCH. */
int slot_from_word(int64_t word);

/* Gives the register at a byte address. Answers 0, 16 or 17. */
int register_read(const struct registers *registers, const int slot[SLOTS], int64_t byte_address, int64_t *value);

#endif

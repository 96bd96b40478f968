/* card.h: serials and calibration cards. */
#ifndef CARD_H
#define CARD_H

#include <stdbool.h>
#include <stddef.h>
#include <stdint.h>

enum { SERIAL_DIGITS = 12, FIELDS = 8 };

/* A serial is text: its length counts, and so does every leading zero. Bytes past the length are zero. */
struct serial {
    size_t length;
    unsigned char digit[SERIAL_DIGITS];
};

/* The fields in the order of their numbers, from 0. */
enum { VOFFS, IOFFS, VGAIN, IGAIN, PHASE, IRMSOFFS, SQUELCH, POFFS };

struct card {
    struct serial serial;
    int64_t field[FIELDS];
};

/* False, and nothing written, unless the text is 1 to 12 ASCII digits. */
bool serial_from(struct serial *serial, const unsigned char *text, size_t length);

bool serial_equal(const struct serial *a, const struct serial *b);

/* Whether a field, numbered from 0, may have this value. */
bool field_allows(size_t field, int64_t value);

#endif

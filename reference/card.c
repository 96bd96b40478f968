/* card.c: which texts are serials, and which values a card's fields may have. */
#include "card.h"

#include <string.h>

#include "numbers.h"

bool serial_from(struct serial *serial, const unsigned char *text, size_t length)
{
    if (length < 1 || length > SERIAL_DIGITS)
        return false;
    for (size_t k = 0; k < length; k++)
        if (text[k] < 0x30 || text[k] > 0x39)
            return false;
    memset(serial, 0, sizeof *serial);
    serial->length = length;
    memcpy(serial->digit, text, length);
    return true;
}

bool serial_equal(const struct serial *a, const struct serial *b)
{
    return a->length == b->length && memcmp(a->digit, b->digit, a->length) == 0;
}

bool field_allows(size_t field, int64_t value)
{
    static const struct {
        int64_t low, high;
    } range[FIELDS] = {
        [VOFFS] = {LOWEST, HIGHEST}, [IOFFS] = {LOWEST, HIGHEST}, [VGAIN] = {1, HIGHEST},   [IGAIN] = {1, HIGHEST},
        [PHASE] = {0, 4095},         [IRMSOFFS] = {0, HIGHEST},   [SQUELCH] = {0, HIGHEST}, [POFFS] = {0, HIGHEST},
    };

    return range[field].low <= value && value <= range[field].high;
}

/* book.c: reads a book, and says whether it is well formed. */
#include "book.h"

_Static_assert(BOOK_BYTES_MOST == 44548, "the longest book of document 01");

/* Bytes still to be read. */
struct rest {
    const unsigned char *at;
    size_t left;
};

/* The next bytes, or NULL when there are too few. */
static const unsigned char *take(struct rest *rest, size_t count)
{
    const unsigned char *at = rest->at;

    if (rest->left < count)
        return NULL;
    rest->at += count;
    rest->left -= count;
    return at;
}

static bool take_count(struct rest *rest, size_t most, size_t *count)
{
    const unsigned char *at = take(rest, 2);

    if (!at)
        return false;
    *count = (size_t)at[0] + 256 * (size_t)at[1];
    return *count <= most;
}

/* One length byte, then twelve: the digits and zero bytes. */
static bool take_serial(struct rest *rest, struct serial *serial)
{
    const unsigned char *at = take(rest, SERIAL_BYTES);

    if (!at || !serial_from(serial, at + 1, at[0]))
        return false;
    for (size_t k = serial->length; k < SERIAL_DIGITS; k++)
        if (at[1 + k] != 0)
            return false;
    return true;
}

/* Three bytes, low byte first; fields 1 and 2 in two's complement. */
static int64_t field_value(size_t field, const unsigned char *at)
{
    int64_t value = at[0] + 256 * (int64_t)at[1] + 65536 * (int64_t)at[2];

    return field <= IOFFS && value >= 8388608 ? value - 16777216 : value;
}

static bool take_card(struct rest *rest, struct card *card)
{
    if (!take_serial(rest, &card->serial))
        return false;
    for (size_t field = 0; field < FIELDS; field++) {
        const unsigned char *at = take(rest, 3);

        if (!at)
            return false;
        card->field[field] = field_value(field, at);
        if (!field_allows(field, card->field[field]))
            return false;
    }
    return true;
}

static bool take_cards(struct rest *rest, struct book *book)
{
    if (!take_count(rest, CARDS_MOST, &book->cards))
        return false;
    for (size_t k = 0; k < book->cards; k++) {
        if (!take_card(rest, &book->card[k]))
            return false;
        for (size_t j = 0; j < k; j++)
            if (serial_equal(&book->card[j].serial, &book->card[k].serial))
                return false;
    }
    return true;
}

static bool take_withdrawn(struct rest *rest, struct book *book)
{
    if (!take_count(rest, WITHDRAWN_MOST, &book->withdrawn))
        return false;
    for (size_t k = 0; k < book->withdrawn; k++) {
        if (!take_serial(rest, &book->gone[k]))
            return false;
        for (size_t j = 0; j < k; j++)
            if (serial_equal(&book->gone[j], &book->gone[k]))
                return false;
    }
    return true;
}

bool book_from(struct book *book, const unsigned char *bytes, size_t length)
{
    struct rest rest = {bytes, length};

    return take_cards(&rest, book) && take_withdrawn(&rest, book) && rest.left == 0;
}

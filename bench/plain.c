/* The lookup of a serial in a card book, in plain C: the same checks by the same nested loops as the proved one, for the measurement. */
#include "plain.h"

static size_t count_at(const uint8_t *b, size_t at)
{
    return b[at] + 256u * b[at + 1];
}

static int is_serial(const uint8_t *t, size_t n)
{
    if (n < 1 || 12 < n)
        return 0;
    for (size_t k = 0; k < n; k++)
        if (t[k] < '0' || '9' < t[k])
            return 0;
    return 1;
}

static int holds_serial(const uint8_t *e)
{
    uint8_t n = e[0];
    if (n < 1 || 12 < n)
        return 0;
    for (size_t k = 0; k < 12; k++)
        if (k < n ? e[1 + k] < '0' || '9' < e[1 + k] : e[1 + k] != 0)
            return 0;
    return 1;
}

static int is_card(const uint8_t *c)
{
    static const int32_t low[8] = {-8388608, -8388608, 1, 1, 0, 0, 0, 0};
    static const int32_t high[8] = {8388607, 8388607, 8388607, 8388607, 4095, 8388607, 8388607, 8388607};
    if (!holds_serial(c))
        return 0;
    for (size_t k = 0; k < 8; k++) {
        int32_t v = c[13 + 3 * k] + 256 * c[14 + 3 * k] + 65536 * c[15 + 3 * k];
        if (k < 2 && 8388608 <= v)
            v -= 16777216;
        if (v < low[k] || high[k] < v)
            return 0;
    }
    return 1;
}

static int distinct(const uint8_t *b, size_t base, size_t size, size_t n)
{
    for (size_t j = 0; j < n; j++)
        for (size_t i = 0; i < j; i++) {
            size_t k = 0;
            while (k < 13 && b[base + i * size + k] == b[base + j * size + k])
                k++;
            if (k == 13)
                return 0;
        }
    return 1;
}

static int is_book(const uint8_t *b, size_t length)
{
    if (length < 4)
        return 0;
    size_t cards = count_at(b, 0);
    size_t end = 2 + 37 * cards;
    if (1024 < cards || length < end + 2)
        return 0;
    size_t gone = count_at(b, end);
    if (512 < gone || length != end + 2 + 13 * gone)
        return 0;
    for (size_t k = 0; k < cards; k++)
        if (!is_card(b + 2 + 37 * k))
            return 0;
    if (!distinct(b, 2, 37, cards))
        return 0;
    for (size_t k = 0; k < gone; k++)
        if (!holds_serial(b + end + 2 + 13 * k))
            return 0;
    return distinct(b, end + 2, 13, gone);
}

static size_t find(const uint8_t *b, size_t base, size_t size, size_t n, const uint8_t *key)
{
    for (size_t j = 0; j < n; j++) {
        size_t k = 0;
        while (k < 13 && b[base + j * size + k] == key[k])
            k++;
        if (k == 13)
            return j;
    }
    return n;
}

int64_t plain_lookup(const uint8_t *book, size_t book_length, const uint8_t *serial, size_t serial_length)
{
    if (!is_serial(serial, serial_length))
        return -1;
    if (!is_book(book, book_length))
        return -2;
    uint8_t key[13] = {(uint8_t)serial_length};
    for (size_t k = 0; k < serial_length; k++)
        key[1 + k] = serial[k];
    size_t cards = count_at(book, 0);
    size_t end = 2 + 37 * cards;
    size_t gone = count_at(book, end);
    if (find(book, end + 2, 13, gone, key) < gone)
        return -3;
    size_t k = find(book, 2, 37, cards, key);
    return k < cards ? (int64_t)(2 + 37 * k) : -4;
}

/* make-book.c: the program make-book: prints a book, good or damaged. Kinds take turns from seed to seed. */
#include <stdio.h>
#include <string.h>

#include "random.h"

enum { CARD = 37, SERIAL = 13, MOST_CARDS = 1024, MOST_WITHDRAWN = 512, ROOM = 300000 };

/* Places come one after another, so a section is an array of bytes. One place more than allowed has room. */
static unsigned char card[(MOST_CARDS + 1) * CARD], withdrawn[(MOST_WITHDRAWN + 1) * SERIAL];
static size_t cards, gone;

static unsigned char book[ROOM];
static size_t length;

static void draw_serial(unsigned char *place, size_t digits)
{
    memset(place, 0, SERIAL);
    place[0] = (unsigned char)digits;
    for (size_t k = 0; k < digits; k++)
        place[1 + k] = (unsigned char)('0' + (chance(30) ? 0 : draw(10)));
}

static bool stands_before(const unsigned char *section, size_t step, size_t count)
{
    for (size_t k = 0; k < count; k++)
        if (memcmp(section + k * step, section + count * step, SERIAL) == 0)
            return true;
    return false;
}

static void put_field(unsigned char *place, int field, int64_t value)
{
    unsigned char *at = place + SERIAL + 3 * (field - 1);

    for (int k = 0; k < 3; k++)
        at[k] = (unsigned char)((uint64_t)value >> (8 * k) & 255);
}

static int64_t draw_field(int field)
{
    if (field <= 2)
        return chance(30) ? PICK(0, -1, 8388607, -8388608) : between(-8388608, 8388607);
    if (field == 5)
        return chance(30) ? PICK(0, 4095) : between(0, 4095);
    if (field <= 4)
        return chance(30) ? PICK(1, 2097152, 8388607) : between(1, 8388607);
    return chance(30) ? PICK(0, 8388607) : between(0, 8388607);
}

/* A serial that does not stand before in its section; most are long, so that a full section finds enough. */
static void draw_new_serial(unsigned char *section, size_t step, size_t count)
{
    do
        draw_serial(section + count * step, (size_t)(chance(70) ? between(4, 12) : between(1, 12)));
    while (stands_before(section, step, count));
}

static void draw_book(size_t card_count, size_t gone_count)
{
    for (cards = 0; cards < card_count; cards++) {
        draw_new_serial(card, CARD, cards);
        for (int field = 1; field <= 8; field++)
            put_field(card + cards * CARD, field, draw_field(field));
    }
    for (gone = 0; gone < gone_count; gone++)
        draw_new_serial(withdrawn, SERIAL, gone);
}

static void append(const void *bytes, size_t count)
{
    memcpy(book + length, bytes, count);
    length += count;
}

static void append_count(size_t count)
{
    unsigned char bytes[2] = {(unsigned char)(count % 256), (unsigned char)(count / 256)};

    append(bytes, 2);
}

static void lay_out(void)
{
    length = 0;
    append_count(cards);
    append(card, cards * CARD);
    append_count(gone);
    append(withdrawn, gone * SERIAL);
}

static void good(void)
{
    size_t card_count = (size_t)between(0, chance(20) ? 200 : 12);

    draw_book(card_count, (size_t)between(0, chance(20) ? 100 : 8));
    lay_out();
}

static void some_of_each(void)
{
    size_t card_count = (size_t)between(2, 12);

    draw_book(card_count, (size_t)between(2, 8));
    lay_out();
}

static void full(void)
{
    draw_book(MOST_CARDS, MOST_WITHDRAWN);
    lay_out();
}

static void empty(void)
{
    draw_book(0, chance(50) ? 0 : 2);
    lay_out();
}

static void cut_short(void)
{
    good();
    length = (size_t)draw(length);
}

static void bit_flipped(void)
{
    size_t at;

    good();
    at = draw(length);
    book[at] ^= (unsigned char)(1u << draw(8));
}

static void repeated_card(void)
{
    some_of_each();
    memcpy(card + (chance(50) ? cards - 1 : 1 + draw(cards - 1)) * CARD, card, SERIAL);
    lay_out();
}

static void repeated_withdrawn(void)
{
    some_of_each();
    memcpy(withdrawn + (gone - 1) * SERIAL, withdrawn + draw(gone - 1) * SERIAL, SERIAL);
    lay_out();
}

/* One serial may stand in both sections. */
static void in_both(void)
{
    some_of_each();
    memcpy(withdrawn, card + draw(cards) * CARD, SERIAL);
    for (gone = 1; gone < 3; gone++)
        draw_new_serial(withdrawn, SERIAL, gone);
    lay_out();
}

static void bytes_behind(void)
{
    if (chance(50))
        full();
    else
        some_of_each();
    length += (size_t)PICK(1, 1, 2, 13, 37, 5000, 100000, 200000);
}

static void too_many(void)
{
    if (chance(50))
        draw_book(MOST_CARDS + 1, chance(50) ? 0 : MOST_WITHDRAWN);
    else
        draw_book(chance(50) ? 0 : MOST_CARDS, MOST_WITHDRAWN + 1);
    lay_out();
}

/* Counts that do not agree with what follows. */
static void wrong_count(void)
{
    some_of_each();
    cards += (size_t)between(0, 1);
    gone += (size_t)between(0, 1);
    lay_out();
    book[0] = (unsigned char)(book[0] + between(-1, 1));
    book[1] = (unsigned char)PICK(0, 0, 1, 4, 5, 255);
}

static unsigned char *some_place(void)
{
    return chance(50) ? card + draw(cards) * CARD : withdrawn + draw(gone) * SERIAL;
}

static void dirty_padding(void)
{
    unsigned char *place, byte = (unsigned char)PICK('0', 1, 255, '9', ' ');
    size_t digits = (size_t)between(1, 11);

    some_of_each();
    place = some_place();
    draw_serial(place, digits);
    place[chance(50) ? SERIAL - 1 : 1 + digits] = byte;
    lay_out();
}

static void field_out(void)
{
    int field = (int)between(3, 8);
    int64_t least = field == 5 ? 4096 : 8388608;
    int64_t value = field <= 4 && chance(40) ? 0 : PICK(least, 16777215, between(least, 16777215));

    some_of_each();
    put_field(card + draw(cards) * CARD, field, value);
    lay_out();
}

static void bad_serial(void)
{
    unsigned char *place, byte = (unsigned char)PICK('/', ':', 0, 'a', ' ', 0xB0, 255, '-');

    some_of_each();
    place = some_place();
    if (chance(50))
        place[0] = (unsigned char)PICK(0, 13, 14, 255, place[0] + 1, place[0] - 1);
    else
        place[1 + draw(place[0])] = byte;
    lay_out();
}

static void hardly_any(void)
{
    length = (size_t)between(0, 5);
    for (size_t k = 0; k < length; k++)
        book[k] = (unsigned char)(chance(80) ? 0 : draw(256));
}

static void noise(void)
{
    length = (size_t)between(4, 500);
    for (size_t k = 0; k < length; k++)
        book[k] = (unsigned char)draw(256);
}

/* 417, 0417, 00417 .. are all different; so are 4, 41, 417 .. */
static void nearly_alike(void)
{
    size_t count = (size_t)between(2, 9);

    draw_book(count, count);
    for (size_t k = 0; k < count; k++) {
        draw_serial(card + k * CARD, 3 + k);
        memset(card + k * CARD + 1, '0', k);
        memcpy(card + k * CARD + 1 + k, "417", 3);
        draw_serial(withdrawn + k * SERIAL, 3 + k);
        memset(withdrawn + k * SERIAL + 1, '0', 3 + k);
        memcpy(withdrawn + k * SERIAL + 1, "417", 3);
    }
    lay_out();
}

/* A full book where only the last serial of a section repeats the one before it, or the first. */
static void last_repeated(void)
{
    draw_book(MOST_CARDS, MOST_WITHDRAWN);
    if (chance(50))
        memcpy(card + (MOST_CARDS - 1) * CARD, card + (size_t)PICK(0, MOST_CARDS - 2) * CARD, SERIAL);
    else
        memcpy(withdrawn + (MOST_WITHDRAWN - 1) * SERIAL, withdrawn + (size_t)PICK(0, MOST_WITHDRAWN - 2) * SERIAL,
               SERIAL);
    lay_out();
}

int main(int argc, char **argv)
{
    static void (*const kind[])(void) = {
        good,          good,         full,          empty,
        cut_short,     bit_flipped,  repeated_card, repeated_withdrawn,
        in_both,       bytes_behind, too_many,      wrong_count,
        dirty_padding, field_out,    bad_serial,    hardly_any,
        noise,         nearly_alike, last_repeated, cut_short,
        bit_flipped,   bit_flipped,  bad_serial,    good,
        in_both,
    };
    uint64_t seed = seed_argument(argc, argv);

    random_seed(seed);
    kind[seed % (sizeof kind / sizeof kind[0])]();
    fwrite(book, 1, length, stdout);
    return fflush(stdout) == 0 ? 0 : 1;
}

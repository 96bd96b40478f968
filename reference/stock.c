/* stock.c: the program reference-stock: does the orders that the head of examples/stock.c lists, a line each. Of a
 * refusal it prints the number alone. */
#include <inttypes.h>
#include <stdio.h>
#include <string.h>

#include "book.h"

enum { LINE_MOST = 255, BEHIND = 8 };

static unsigned char bytes[BOOK_BYTES_MOST];
static size_t used = 4, room = sizeof bytes;
static struct book book;

static void print_serial(const struct serial *serial)
{
    fwrite(serial->digit, 1, serial->length, stdout);
}

static void print_card(const struct card *card)
{
    print_serial(&card->serial);
    for (size_t field = 0; field < FIELDS; field++)
        printf(" %" PRId64, card->field[field]);
    putchar('\n');
}

static int stands_among_cards(const struct serial *serial)
{
    for (size_t k = 0; k < book.cards; k++)
        if (serial_equal(&book.card[k].serial, serial))
            return (int)k;
    return -1;
}

static bool is_withdrawn(const struct serial *serial)
{
    for (size_t k = 0; k < book.withdrawn; k++)
        if (serial_equal(&book.gone[k], serial))
            return true;
    return false;
}

static int find(const unsigned char *label, size_t length)
{
    struct serial serial;
    int k;

    if (!serial_from(&serial, label, length))
        return 1;
    if (!book_from(&book, bytes, used))
        return 2;
    if (is_withdrawn(&serial))
        return 3;
    k = stands_among_cards(&serial);
    if (k < 0)
        return 4;
    printf("card at %d: ", 2 + CARD_BYTES * k);
    print_card(&book.card[k]);
    return 0;
}

/* ---- a book laid out anew */

static unsigned char *put_count(unsigned char *at, size_t count)
{
    *at++ = (unsigned char)(count % 256);
    *at++ = (unsigned char)(count / 256);
    return at;
}

static unsigned char *put_serial(unsigned char *at, const struct serial *serial)
{
    memset(at, 0, SERIAL_BYTES);
    at[0] = (unsigned char)serial->length;
    memcpy(at + 1, serial->digit, serial->length);
    return at + SERIAL_BYTES;
}

static void lay_out(void)
{
    unsigned char *at = put_count(bytes, book.cards);

    for (size_t k = 0; k < book.cards; k++) {
        at = put_serial(at, &book.card[k].serial);
        for (size_t field = 0; field < FIELDS; field++)
            for (int shift = 0; shift < 24; shift += 8)
                *at++ = (unsigned char)((uint64_t)book.card[k].field[field] >> shift);
    }
    at = put_count(at, book.withdrawn);
    for (size_t k = 0; k < book.withdrawn; k++)
        at = put_serial(at, &book.gone[k]);
    used = (size_t)(at - bytes);
    printf("%zu bytes used\n", used);
}

static int add(const unsigned char *label, size_t length, const int64_t *value)
{
    struct card card;

    if (!serial_from(&card.serial, label, length))
        return 1;
    for (size_t field = 0; field < FIELDS; field++) {
        if (!field_allows(field, value[field]))
            return 12;
        card.field[field] = value[field];
    }
    if (used > room || !book_from(&book, bytes, used))
        return 2;
    if (stands_among_cards(&card.serial) >= 0)
        return 19;
    if (book.cards == CARDS_MOST)
        return 20;
    if (used + CARD_BYTES > room)
        return 21;
    book.card[book.cards++] = card;
    lay_out();
    return 0;
}

static int withdraw(const unsigned char *label, size_t length)
{
    struct serial serial;

    if (!serial_from(&serial, label, length))
        return 1;
    if (used > room || !book_from(&book, bytes, used))
        return 2;
    if (is_withdrawn(&serial))
        return 19;
    if (book.withdrawn == WITHDRAWN_MOST)
        return 20;
    if (used + SERIAL_BYTES > room)
        return 21;
    book.gone[book.withdrawn++] = serial;
    lay_out();
    return 0;
}

static int list(void)
{
    if (!book_from(&book, bytes, used))
        return 2;
    for (size_t k = 0; k < book.cards; k++)
        print_card(&book.card[k]);
    for (size_t k = 0; k < book.withdrawn; k++) {
        fputs("W ", stdout);
        print_serial(&book.gone[k]);
        putchar('\n');
    }
    return 0;
}

static int check(void)
{
    if (!book_from(&book, bytes, used))
        return 2;
    puts("well formed");
    return 0;
}

/* ---- lines */

/* Whether a word of so many bytes is a whole decimal number. Eleven digits that count are more than any range has. */
static bool whole(const char *word, size_t length, int64_t *value)
{
    bool minus = length > 0 && *word == '-';

    *value = 0;
    if (length == (minus ? 1 : 0))
        return false;
    for (size_t k = minus ? 1 : 0; k < length; k++) {
        if (word[k] < '0' || word[k] > '9')
            return false;
        if (*value < 10000000000)
            *value = *value * 10 + (word[k] - '0');
    }
    if (minus)
        *value = -*value;
    return true;
}

static size_t to_space(const char *at, const char *end)
{
    const char *space = memchr(at, ' ', (size_t)(end - at));

    return (size_t)((space ? space : end) - at);
}

/* What follows `add` */
static int add_line(const char *at, const char *end)
{
    const char *label = at + 1;
    size_t length;
    int64_t value[FIELDS];

    if (at == end) {
        puts("not added: no label");
        return 0;
    }
    length = to_space(label, end);
    at = label + length;
    for (int k = 0; k < FIELDS; k++) {
        size_t n;

        if (at == end) {
            printf("not added: %d of eight values\n", k);
            return 0;
        }
        n = to_space(++at, end);
        if (!whole(at, n, &value[k])) {
            printf("not added: value %d is not a whole decimal number\n", k + 1);
            return 0;
        }
        at += n;
    }
    if (at != end) {
        puts("not added: more than eight values");
        return 0;
    }
    return add((const unsigned char *)label, length, value);
}

static void set_room(const char *at, const char *end)
{
    int64_t n = -1;

    if (at == end || !whole(at + 1, (size_t)(end - at) - 1, &n) || n < 0)
        puts("room: one whole number, please");
    else
        room = (uint64_t)n < sizeof bytes ? (size_t)n : sizeof bytes;
}

static void set_book(const char *at, const char *end)
{
    static const char digits[] = "0123456789abcdef";
    size_t pairs = at == end ? 0 : (size_t)(end - at - 1) / 2;

    for (const char *c = at + 1; at != end && c < end; c++)
        if (*c == 0 || !strchr(digits, *c) || (end - at - 1) % 2 != 0) {
            puts("book: pairs of hexadecimal digits, please");
            return;
        }
    memset(bytes, 0xEE, sizeof bytes);
    for (used = 0; used < pairs; used++)
        bytes[used] = (unsigned char)(16 * (strchr(digits, at[1 + 2 * used]) - digits) +
                                      (strchr(digits, at[2 + 2 * used]) - digits));
}

static void print_bytes(void)
{
    for (size_t k = 0; k < used + BEHIND && k < sizeof bytes; k++)
        printf("%02x", bytes[k]);
    putchar('\n');
}

static bool begins(const char *line, const char *end, const char *order)
{
    size_t n = strlen(order);

    return (size_t)(end - line) >= n && memcmp(line, order, n) == 0 && (line + n == end || line[n] == ' ');
}

static int do_line(const char *line, const char *end)
{
    bool whole_line = memchr(line, ' ', (size_t)(end - line)) == NULL;

    if (begins(line, end, "find") && !whole_line)
        return find((const unsigned char *)line + 5, (size_t)(end - line) - 5);
    if (begins(line, end, "withdraw") && !whole_line)
        return withdraw((const unsigned char *)line + 9, (size_t)(end - line) - 9);
    if (begins(line, end, "add"))
        return add_line(line + 3, end);
    if (begins(line, end, "list") && whole_line)
        return list();
    if (begins(line, end, "check") && whole_line)
        return check();
    if (begins(line, end, "room"))
        set_room(line + 4, end);
    else if (begins(line, end, "book"))
        set_book(line + 4, end);
    else if (begins(line, end, "bytes") && whole_line)
        print_bytes();
    else
        puts("no such order");
    return 0;
}

int main(void)
{
    static char line[1 << 20];
    size_t length = 0;
    int byte;

    do {
        byte = getchar();
        if (byte != '\n' && byte != EOF) {
            line[length++] = (char)byte;
            continue;
        }
        if (byte == EOF && length == 0)
            break;
        if (length > LINE_MOST) {
            printf("not done: a line of %zu bytes\n", length);
        } else {
            int refusal = do_line(line, line + length);

            if (refusal != 0)
                printf("refused %d\n", refusal);
        }
        length = 0;
    } while (byte != EOF);
    return fflush(stdout) == 0 ? 0 : 1;
}

/* A small stock program over the card book: it keeps a book in a buffer and does one order a line of standard input.
 *
 *     find LABEL               look a label up, and print the card's place, serial and fields
 *     add LABEL F1 .. F8       add a card with the eight fields
 *     withdraw LABEL           withdraw a serial
 *     list                     print the cards, and then the withdrawn serials after a W
 *     check                    say whether the book is well formed
 *     room N                   from now on the buffer has N bytes
 *     book HEX                 from now on these bytes are the book
 *     bytes                    print the book's bytes, and eight behind them
 *
 * A label is passed as it stands, with its length: nothing here makes a number of it, cuts it or ends it at a zero
 * byte. That of `find` and `withdraw` is all that follows the order's one space; that of `add` ends at the next space.
 * One space parts the items of a line. A value is a whole decimal number, with a minus sign before one below zero. */
#include <inttypes.h>
#include <stdbool.h>
#include <stdio.h>
#include <string.h>

#include "stock.h"

enum { LINE_MOST = 255 };

/* What is left of a line, any bytes. */
struct text {
    const uint8_t *at;
    size_t length;
};

static uint8_t buffer[STOCK_BOOK_BYTES];
static size_t room = sizeof buffer;
static size_t used = 4; /* an empty book: two counts of zero */

static void refused(int64_t answer)
{
    uint8_t words[STOCK_WORDS_BYTES];
    size_t n = stock_words(STOCK_NUMBER(answer), words, sizeof words);
    printf("refused %zu: %.*s\n", STOCK_NUMBER(answer), (int)n, (const char *)words);
}

/* ---- reading a line */

/* Takes a word, up to the next space or the end; false where there is no space before it. */
static bool take_word(struct text *rest, struct text *word)
{
    const uint8_t *space;

    if (rest->length == 0 || rest->at[0] != ' ')
        return false;
    rest->at++, rest->length--;
    space = memchr(rest->at, ' ', rest->length);
    word->at = rest->at;
    word->length = space ? (size_t)(space - rest->at) : rest->length;
    rest->at += word->length;
    rest->length -= word->length;
    return true;
}

/* A whole decimal number. One beyond 64 bits counts as the nearest that has them, which is in no field's range either. */
static bool whole_number(struct text word, int64_t *value)
{
    bool below = word.length > 0 && word.at[0] == '-';
    uint64_t most = below ? (uint64_t)INT64_MAX + 1 : INT64_MAX, size = 0;

    if (word.length == (below ? 1 : 0))
        return false;
    for (size_t k = below; k < word.length; k++) {
        if (word.at[k] < '0' || word.at[k] > '9')
            return false;
        size = size > (most - (word.at[k] - '0')) / 10 ? most : size * 10 + (word.at[k] - '0');
    }
    *value = below ? (int64_t)(0 - size) : (int64_t)size;
    return true;
}

/* Whether a line is this order; if it is, what follows is left of it. */
static bool is_order(struct text line, const char *order, struct text *rest)
{
    size_t n = strlen(order);

    if (line.length < n || memcmp(line.at, order, n) != 0 || (line.length > n && line.at[n] != ' '))
        return false;
    *rest = (struct text){line.at + n, line.length - n};
    return true;
}

/* ---- the orders */

static void print_card(size_t place)
{
    uint8_t digits[STOCK_SERIAL_DIGITS];
    int64_t fields[STOCK_FIELDS];
    int64_t n = stock_serial(buffer + place, STOCK_CARD_BYTES, digits, sizeof digits);

    if (STOCK_REFUSED(n) || STOCK_REFUSED(stock_fields(buffer + place, STOCK_CARD_BYTES, fields, STOCK_FIELDS))) {
        printf("no card\n");
        return;
    }
    printf("%.*s", (int)n, (const char *)digits);
    for (int k = 0; k < STOCK_FIELDS; k++)
        printf(" %" PRId64, fields[k]);
    printf("\n");
}

static void find(struct text label)
{
    int64_t place = stock_lookup(buffer, used, label.at, label.length);

    if (STOCK_REFUSED(place)) {
        refused(place);
        return;
    }
    printf("card at %" PRId64 ": ", place);
    print_card((size_t)place);
}

static void changed(int64_t length)
{
    if (STOCK_REFUSED(length)) {
        refused(length);
        return;
    }
    used = (size_t)length;
    printf("%zu bytes used\n", used);
}

static void add(struct text rest)
{
    struct text label, word;
    int64_t f[STOCK_FIELDS];

    if (!take_word(&rest, &label)) {
        printf("not added: no label\n");
        return;
    }
    for (int k = 0; k < STOCK_FIELDS; k++) {
        if (!take_word(&rest, &word)) {
            printf("not added: %d of eight values\n", k);
            return;
        }
        if (!whole_number(word, &f[k])) {
            printf("not added: value %d is not a whole decimal number\n", k + 1);
            return;
        }
    }
    if (rest.length > 0) {
        printf("not added: more than eight values\n");
        return;
    }
    changed(stock_add(buffer, room, used, label.at, label.length, f[0], f[1], f[2], f[3], f[4], f[5], f[6], f[7]));
}

static void list(void)
{
    uint8_t digits[STOCK_SERIAL_DIGITS];
    int64_t answer = stock_check(buffer, used);
    size_t at;

    if (STOCK_REFUSED(answer)) {
        refused(answer);
        return;
    }
    for (size_t k = 0; (at = stock_card(buffer, used, k)) != 0; k++)
        print_card(at);
    for (size_t k = 0; (at = stock_withdrawn(buffer, used, k)) != 0; k++) {
        int64_t n = stock_serial(buffer + at, STOCK_SERIAL_BYTES, digits, sizeof digits);
        printf("W %.*s\n", STOCK_REFUSED(n) ? 0 : (int)n, (const char *)digits);
    }
}

static void check(void)
{
    int64_t answer = stock_check(buffer, used);

    if (STOCK_REFUSED(answer))
        refused(answer);
    else
        printf("well formed\n");
}

static void set_room(struct text rest)
{
    struct text word;
    int64_t n;

    if (!take_word(&rest, &word) || rest.length > 0 || !whole_number(word, &n) || n < 0)
        printf("room: one whole number, please\n");
    else
        room = (uint64_t)n < sizeof buffer ? (size_t)n : sizeof buffer;
}

static int hex(uint8_t digit)
{
    if (digit >= '0' && digit <= '9')
        return digit - '0';
    return digit >= 'a' && digit <= 'f' ? digit - 'a' + 10 : -1;
}

static void set_book(struct text rest)
{
    struct text word = {NULL, 0};

    if (rest.length > 0 && (!take_word(&rest, &word) || rest.length > 0))
        word.length = 1;
    for (size_t k = 0; k < word.length; k++)
        if (word.length % 2 != 0 || hex(word.at[k]) < 0) {
            printf("book: pairs of hexadecimal digits, please\n");
            return;
        }
    memset(buffer, 0xEE, sizeof buffer);
    for (used = 0; 2 * used < word.length; used++)
        buffer[used] = (uint8_t)(16 * hex(word.at[2 * used]) + hex(word.at[2 * used + 1]));
}

static void print_bytes(void)
{
    for (size_t k = 0; k < used + 8 && k < sizeof buffer; k++)
        printf("%02x", buffer[k]);
    printf("\n");
}

static void do_order(struct text line)
{
    struct text rest;

    if (is_order(line, "find", &rest) && rest.length > 0)
        find((struct text){rest.at + 1, rest.length - 1});
    else if (is_order(line, "withdraw", &rest) && rest.length > 0)
        changed(stock_withdraw(buffer, room, used, rest.at + 1, rest.length - 1));
    else if (is_order(line, "add", &rest))
        add(rest);
    else if (is_order(line, "list", &rest) && rest.length == 0)
        list();
    else if (is_order(line, "check", &rest) && rest.length == 0)
        check();
    else if (is_order(line, "room", &rest))
        set_room(rest);
    else if (is_order(line, "book", &rest))
        set_book(rest);
    else if (is_order(line, "bytes", &rest) && rest.length == 0)
        print_bytes();
    else
        printf("no such order\n");
}

/* Reads a line, without its line feed; false at the end. Of one that is too long the length alone is kept. */
static bool read_line(uint8_t *line, size_t *length)
{
    int byte = getchar();

    for (*length = 0; byte != EOF && byte != '\n'; byte = getchar()) {
        if (*length < LINE_MOST)
            line[*length] = (uint8_t)byte;
        (*length)++;
    }
    return byte != EOF || *length > 0;
}

int main(void)
{
    uint8_t line[LINE_MOST];
    size_t length;

    while (read_line(line, &length))
        if (length > LINE_MOST)
            printf("not done: a line of %zu bytes\n", length);
        else
            do_order((struct text){line, length});
    return fflush(stdout) == 0 ? 0 : 1;
}

/* What include/stock.h says of the edges: empty and null, lengths, what may overlap, the walk, the words. Prints a
 * line for each thing that is not so, and at the end how many were looked at. */
#include <stdio.h>
#include <string.h>

#include "stock.h"

static int looked, wrong;

static void is(int64_t got, int64_t due, const char *what)
{
    looked++;
    if (got != due) {
        wrong++;
        printf("%s: %lld and not %lld\n", what, (long long)got, (long long)due);
    }
}
#define IS(got, due) is((int64_t)(got), (int64_t)(due), #got)

static const uint8_t *text(const char *digits)
{
    return (const uint8_t *)digits;
}

/* four zero bytes are a book; nothing is none; a null pointer goes with the length 0 */
static void empty(void)
{
    uint8_t none[4] = {0, 0, 0, 0};

    IS(stock_check(none, 4), 0);
    IS(stock_check(none, 3), -2);
    IS(stock_check(NULL, 0), -2);
    IS(stock_lookup(none, 4, text("1"), 1), -4);
    IS(stock_lookup(none, 4, NULL, 0), -1);
    IS(stock_lookup(NULL, 0, text("1"), 1), -2);
    IS(stock_lookup(NULL, 0, NULL, 0), -1);
    IS(stock_add(NULL, 0, 0, text("1"), 1, 0, 0, 1, 1, 0, 0, 0, 0), -2);
    IS(stock_withdraw(NULL, 0, 0, text("1"), 1), -2);
    IS(stock_withdraw(none, 4, 4, text("1"), 1), -21);
    IS(stock_withdraw(none, 4, 5, text("1"), 1), -2);
    IS(stock_withdraw(none, 4, SIZE_MAX, text("1"), 1), -2);
    IS(stock_card(none, 4, 0), 0);
    IS(stock_card(NULL, 0, 0), 0);
    IS(stock_withdrawn(NULL, 0, SIZE_MAX), 0);
    IS(stock_serial(NULL, 0, NULL, 0), -2);
    IS(stock_fields(NULL, 0, NULL, 0), -2);
    IS(stock_words(1, NULL, 0), 0);
}

/* the label 0417 is not 417, and its length counts */
static void labels(const uint8_t *book, size_t used)
{
    IS(stock_lookup(book, used, text("0417"), 4), 2);
    IS(stock_lookup(book, used, text("0417"), 5), -1);
    IS(stock_lookup(book, used, text("0417"), 3), -4);
    IS(stock_lookup(book, used, text("417"), 3), 39);
    IS(stock_lookup(book, used, text("9"), 1), -3);
    IS(stock_lookup(book, used - 1, text("417"), 3), -2);
    /* a serial may be lent out of the book itself */
    IS(stock_lookup(book, used, book + 3, 4), 2);
    IS(stock_lookup(book, used, book + 40, 3), 39);
    /* the place 2 is an answer and no refusal, and -2 is one */
    IS(STOCK_REFUSED(stock_lookup(book, used, text("0417"), 4)), 0);
    IS(STOCK_REFUSED(stock_check(book, used - 1)), 1);
    IS(STOCK_NUMBER(stock_check(book, used - 1)), STOCK_NOT_A_BOOK);
}

/* the walk, and what an entry says */
static void walk(const uint8_t *book, size_t used)
{
    uint8_t digits[14];
    int64_t f[9] = {7, 7, 7, 7, 7, 7, 7, 7, 7};

    IS(stock_card(book, used, 0), 2);
    IS(stock_card(book, used, 1), 39);
    IS(stock_card(book, used, 2), 0);
    IS(stock_card(book, used, SIZE_MAX), 0);
    IS(stock_withdrawn(book, used, 0), 78);
    IS(stock_withdrawn(book, used, 1), 0);
    IS(stock_card(book, used - 14, 1), 39);
    IS(stock_card(book, 75, 0), 0); /* of bytes that are cut short, none */

    memset(digits, 'x', sizeof digits);
    IS(stock_serial(book + 39, 37, digits, 3), 3);
    IS(memcmp(digits, "417x", 4), 0);
    IS(stock_serial(book + 2, 13, digits, 3), -21);
    IS(memcmp(digits, "417x", 4), 0);
    IS(stock_serial(book + 2, 12, digits, 12), -2);
    IS(stock_serial(book + 3, 37, digits, 12), -2);
    IS(stock_serial(book + 78, 13, digits, 12), 1);
    IS(memcmp(digits, "917x", 4), 0);

    IS(stock_fields(book + 39, 37, f, 9), 8);
    IS(f[0], -8388608);
    IS(f[1], -1);
    IS(f[2], 8388607);
    IS(f[3], 1);
    IS(f[4], 4095);
    IS(f[7], 8388607);
    IS(f[8], 7);
    IS(stock_fields(book + 2, 37, f, 7), -21);
    IS(f[0], -8388608);
    IS(stock_fields(book + 2, 36, f, 8), -2);
    IS(stock_fields(book + 2, 38, f, 8), -2);
    IS(stock_fields(book + 78, 13, f, 8), -2);
}

/* a field of the card at 2 set to a number of three bytes, and what it is read as; -2 out of range */
static void field(uint8_t *book, int k, uint32_t bytes, int64_t due)
{
    uint8_t old[3], *at = book + 2 + 13 + 3 * k;
    int64_t f[8], answer;

    memcpy(old, at, 3);
    at[0] = (uint8_t)bytes, at[1] = (uint8_t)(bytes >> 8), at[2] = (uint8_t)(bytes >> 16);
    answer = stock_fields(book + 2, 37, f, 8);
    is(answer == 8 ? f[k] : answer, due, "field");
    memcpy(at, old, 3);
}

/* the words of each number fit, have no end mark, and leave what is behind them */
static void words(void)
{
    uint8_t said[STOCK_WORDS_BYTES + 1];

    for (size_t number = 0; number <= 30; number++) {
        size_t n;

        memset(said, 0, sizeof said);
        n = stock_words(number, said, STOCK_WORDS_BYTES);
        is(n > 0, number >= 1 && number <= 21, "words of the numbers 1 to 21 alone");
        is(strlen((const char *)said), n, "the length of the words");
        memset(said, 0, sizeof said);
        is(stock_words(number, said, n > 0 ? n - 1 : 0), 0, "words that do not fit");
        is(said[0], 0, "words that do not fit");
        is(stock_words(number, said, n), n, "words that just fit");
    }
    IS(stock_words(13, said, sizeof said), 19);
    IS(memcmp(said, "a field not written", 19), 0);
    IS(stock_words(SIZE_MAX, said, sizeof said), 0);
}

int main(void)
{
    uint8_t book[STOCK_BOOK_BYTES] = {0};
    int64_t used = 4;

    empty();
    used = stock_add(book, sizeof book, (size_t)used, text("0417"), 4, 0, 0, 2097152, 2097152, 0, 0, 0, 0);
    IS(used, 41);
    used = stock_add(book, sizeof book, (size_t)used, text("417"), 3, -8388608, -1, 8388607, 1, 4095, 1, 2, 8388607);
    IS(used, 78);
    used = stock_withdraw(book, sizeof book, (size_t)used, text("9"), 1);
    IS(used, 91);
    labels(book, (size_t)used);
    walk(book, (size_t)used);
    field(book, 0, 0xFFFFFF, -1);
    field(book, 1, 0x800000, -8388608);
    field(book, 2, 0x7FFFFF, 8388607);
    field(book, 2, 0x800000, -2);
    field(book, 3, 0, -2);
    field(book, 4, 4096, -2);
    field(book, 7, 0x800000, -2);
    IS(stock_check(book, (size_t)used), 0);
    words();
    printf("%d looked at, %d wrong\n", looked, wrong);
    return wrong != 0;
}

/* Measures a lookup in a full book, 1,024 cards and 512 withdrawn serials: the proved one beside plain C. */
#include <stdio.h>
#include <stdlib.h>
#include <string.h>
#include <time.h>

#include "plain.h"
#include "stock.h"

enum { ROUNDS = 15, LOOKUPS = 20 };

static uint8_t book[STOCK_BOOK_BYTES];

static size_t put_serial(uint8_t *at, const char *form, int k)
{
    char text[16];
    int n = snprintf(text, sizeof text, form, k);
    memset(at, 0, 13);
    at[0] = (uint8_t)n;
    memcpy(at + 1, text, (size_t)n);
    return 13;
}

/* fills the book: cards with the serials of `form` from 0 on, and withdrawn serials after them */
static size_t fill(const char *form)
{
    uint8_t *at = book;
    *at++ = 1024 % 256;
    *at++ = 1024 / 256;
    for (int k = 0; k < 1024; k++) {
        at += put_serial(at, form, k);
        memset(at, 0, 24);
        at[6] = 1;
        at[9] = 1;
        at += 24;
    }
    *at++ = 512 % 256;
    *at++ = 512 / 256;
    for (int k = 0; k < 512; k++)
        at += put_serial(at, form, 1024 + k);
    return (size_t)(at - book);
}

static double seconds(int64_t (*lookup)(const uint8_t *, size_t, const uint8_t *, size_t), size_t length, const uint8_t *serial, size_t n)
{
    struct timespec a, b;
    clock_gettime(CLOCK_MONOTONIC, &a);
    for (int k = 0; k < LOOKUPS; k++)
        if (lookup(book, length, serial, n) != 2 + 37 * 1023) {
            fprintf(stderr, "a lookup gave a wrong place\n");
            exit(1);
        }
    clock_gettime(CLOCK_MONOTONIC, &b);
    return (double)(b.tv_sec - a.tv_sec) + (double)(b.tv_nsec - a.tv_nsec) / 1e9;
}

static void measure(const char *what, const char *form)
{
    char text[16];
    size_t length = fill(form);
    size_t n = (size_t)snprintf(text, sizeof text, form, 1023);
    double proved = 1e9, plain = 1e9;
    for (int r = 0; r < ROUNDS; r++) {
        double p = seconds(stock_lookup, length, (const uint8_t *)text, n);
        double q = seconds(plain_lookup, length, (const uint8_t *)text, n);
        proved = p < proved ? p : proved;
        plain = q < plain ? q : plain;
    }
    printf("%-32s proved %7.3f ms  plain C %7.3f ms  ratio %.2f\n", what, 1000 * proved / LOOKUPS, 1000 * plain / LOOKUPS, proved / plain);
}

int main(void)
{
    measure("serials of 1 to 4 digits", "%d");
    measure("serials of 12 digits", "20260000%04d");
    return 0;
}

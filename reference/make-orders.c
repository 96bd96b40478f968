/* make-orders.c: the program make-orders: prints orders for the stock program, most of them accepted, on a book that
 * begins empty, small, damaged or nearly full. */
#include <stdio.h>
#include <string.h>

#include "random.h"

/* Labels that are nearly alike, and some that are none. */
static const char *const label[] = {"417", "0417", "00417", "4170",         "41",         "4",
                                    "17",  "0",    "00",    "123456789012", "12345678901"};
static const char *const bad_label[] = {"1234567890123", "04 17", "4x7",  "",         " 417",  "417 ", "-417",
                                        "+417",          "0x417", "4.17", "\xB2\xB3", "417\t", "417\r"};

static void print_label(void)
{
    if (chance(55))
        fputs(label[draw(sizeof label / sizeof label[0])], stdout);
    else if (chance(80))
        printf("%d", (int)between(0, 400));
    else if (chance(80))
        fputs(bad_label[draw(sizeof bad_label / sizeof bad_label[0])], stdout);
    else
        fwrite("41\0007", 1, 4, stdout);
}

static void print_value(int field)
{
    static const char *const odd[] = {"1.9", "0x7f", "+1", "-", "", "1e3", "--1", "a", "1 "};

    if (chance(1))
        fputs(odd[draw(sizeof odd / sizeof odd[0])], stdout);
    else if (chance(1))
        fputs(chance(50) ? "18446744073709551616" : "-9223372036854775809", stdout);
    else if (chance(2))
        printf("%lld", (long long)PICK(8388608, -8388609, -1, 0, 4096, 16777215, 4294967296, 9223372036854775807));
    else if (field <= 2)
        printf("%lld", (long long)(chance(30) ? PICK(0, -1, 8388607, -8388608) : between(-8388608, 8388607)));
    else if (field == 5)
        printf("%lld", (long long)(chance(30) ? PICK(0, 4095) : between(0, 4095)));
    else
        printf("%lld", (long long)(chance(30) ? PICK(1, 2097152, 8388607) : between(1, 8388607)));
}

static void add(void)
{
    int values = chance(96) ? 8 : (int)PICK(0, 7, 9);

    fputs("add ", stdout);
    print_label();
    for (int field = 1; field <= values; field++) {
        putchar(' ');
        print_value(field);
    }
    putchar('\n');
}

static void named(const char *order)
{
    fputs(order, stdout);
    print_label();
    putchar('\n');
}

/* A book of one card and one withdrawn serial, good, or with one byte changed, or cut, or longer. */
static void small_book(void)
{
    unsigned char book[60] = {1, 0, 3, '4', '1', '7'};
    size_t length = 54;

    book[2 + 19] = 1;
    book[2 + 22] = 1;
    book[39] = 1;
    memcpy(book + 41, "\0040417", 5);
    if (chance(35)) {
        size_t at = draw(length);

        book[at] = (unsigned char)(chance(50) ? book[at] ^ UINT64_C(1) << draw(8) : draw(256));
    }
    if (chance(15))
        length = (size_t)between(0, 60);
    fputs("book ", stdout);
    for (size_t k = 0; k < length; k++)
        printf("%02x", book[k]);
    putchar('\n');
}

/* An empty book in a buffer with just enough room for one entry more, or a byte too little. */
static void edge_of_room(void)
{
    printf("book 00000000\nroom %d\nadd 417 0 0 1 1 0 0 0 0\n", (int)PICK(40, 41));
    printf("book 00000000\nroom %d\nwithdraw 417\n", (int)PICK(16, 17));
    puts("room 44548");
}

static void odd_line(void)
{
    static const char *const line[] = {"",        "find",    "finds 417",  " find 417", "withdraw", "add",
                                       "add 417", "list 1",  "check 1",    "room",      "room x",   "room 1 2",
                                       "book 0",  "book 0g", "book 00 00", "bytes 1",   "FIND 417"};

    if (chance(85)) {
        puts(line[draw(sizeof line / sizeof line[0])]);
    } else {
        int length = (int)PICK(255, 256, 257, 266, 511, 5000);

        fputs("find 417", stdout);
        for (int k = 8; k < length - 12; k++)
            putchar(' ');
        puts("withdraw 417");
    }
}

static void order(void)
{
    int64_t which = between(1, 100);

    if (which <= 40)
        add();
    else if (which <= 65)
        named("find ");
    else if (which <= 82)
        named("withdraw ");
    else if (which <= 85)
        printf("room %d\n", (int)PICK(44548, 44549, 4, 41, 54, 78, 91, 1000));
    else if (which <= 89)
        puts("bytes");
    else if (which <= 91)
        puts("list");
    else if (which <= 94)
        puts("check");
    else if (which <= 96)
        small_book();
    else if (which <= 97)
        edge_of_room();
    else
        odd_line();
}

int main(int argc, char **argv)
{
    uint64_t seed = seed_argument(argc, argv);

    random_seed(seed);
    if (seed % 3 == 0)
        small_book();
    for (int k = 0; k < 250; k++)
        order();
    puts("room 44548");
    puts("bytes");
    return fflush(stdout) == 0 ? 0 : 1;
}

/* cardlist.c: the program reference-cardlist: prints the book on standard input, or REFUSED 2. */
#include <inttypes.h>
#include <stdio.h>

#include "book.h"

static void print_serial(const struct serial *serial)
{
    fwrite(serial->digit, 1, serial->length, stdout);
}

static void print_book(const struct book *book)
{
    printf("CARDS %zu WITHDRAWN %zu\n", book->cards, book->withdrawn);
    for (size_t k = 0; k < book->cards; k++) {
        print_serial(&book->card[k].serial);
        for (size_t field = 0; field < FIELDS; field++)
            printf(" %" PRId64, book->card[k].field[field]);
        putchar('\n');
    }
    for (size_t k = 0; k < book->withdrawn; k++) {
        fputs("W ", stdout);
        print_serial(&book->gone[k]);
        putchar('\n');
    }
}

int main(void)
{
    /* One byte more than the longest book: a longer input fills it, and its length alone is then wrong. */
    static unsigned char bytes[BOOK_BYTES_MOST + 1];
    static struct book book;
    size_t length = fread(bytes, 1, sizeof bytes, stdin);

    if (book_from(&book, bytes, length))
        print_book(&book);
    else
        puts("REFUSED 2");
    return fflush(stdout) == 0 && !ferror(stdin) ? 0 : 1;
}

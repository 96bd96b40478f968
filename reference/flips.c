/* flips.c: the program reference-flips: of the book on standard input, how many of all single flipped bits still give a
 * well-formed book. */
#include <stdio.h>

#include "book.h"

int main(void)
{
    static unsigned char bytes[BOOK_BYTES_MOST];
    static struct book book;
    size_t length = fread(bytes, 1, sizeof bytes, stdin), formed = 0;

    if (!book_from(&book, bytes, length)) {
        puts("REFUSED 2");
        return 0;
    }
    for (size_t bit = 0; bit < 8 * length; bit++) {
        bytes[bit / 8] ^= (unsigned char)(1 << bit % 8);
        formed += book_from(&book, bytes, length);
        bytes[bit / 8] ^= (unsigned char)(1 << bit % 8);
    }
    printf("%zu of %zu\n", formed, 8 * length);
    return fflush(stdout) == 0 ? 0 : 1;
}

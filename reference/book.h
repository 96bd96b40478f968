/* book.h: the card book. */
#ifndef BOOK_H
#define BOOK_H

#include <stdbool.h>
#include <stddef.h>

#include "card.h"

enum { CARDS_MOST = 1024, WITHDRAWN_MOST = 512, CARD_BYTES = 37, SERIAL_BYTES = 13 };
enum { BOOK_BYTES_MOST = 2 + CARDS_MOST * CARD_BYTES + 2 + WITHDRAWN_MOST * SERIAL_BYTES };

struct book {
    size_t cards, withdrawn;
    struct card card[CARDS_MOST];
    struct serial gone[WITHDRAWN_MOST];
};

/* False when the bytes are no well-formed book (refusal 2); what stands in *book is then of no use. */
bool book_from(struct book *book, const unsigned char *bytes, size_t length);

#endif

/* The card book, for the bench computer's stock program: look a serial up, add a card, withdraw a serial, read
 * what a book has.
 *
 * A SERIAL is text, 1 to 12 ASCII digits with no end mark: 0417 and 417 are two serials. It is passed as a pointer
 * to its digits and their exact number, so with no zero byte, line end or blank behind them; what is not 1 to 12
 * digits is refused with 1, and never cut or read as a number.
 *
 * A CARD is 37 bytes: one byte, the number of digits; twelve bytes, the digits and then zeros; eight fields of
 * three bytes each, low byte first. Fields 1 and 2 are signed (two's complement), the others are not.
 *
 *     field        range                       field        range
 *     1 VOFFS      -8388608 to 8388607         5 PHASE      0 to 4095, in 1/4096 of a sample
 *     2 IOFFS      -8388608 to 8388607         6 IRMSOFFS   0 to 8388607
 *     3 VGAIN      1 to 8388607; 2097152 is one    7 SQUELCH    0 to 8388607
 *     4 IGAIN      1 to 8388607; 2097152 is one    8 POFFS      0 to 8388607
 *
 * A BOOK is the number of cards in two bytes, low byte first, and the cards; the number of withdrawn serials in two
 * bytes, and those, 13 bytes each as at the front of a card. It ends there: 4 to 44548 bytes, at most 1024 cards and
 * 512 withdrawn serials. No serial stands twice among the cards, nor among the withdrawn; one may stand in both. An
 * empty book is four zero bytes.
 *
 * AN ANSWER is one signed number: zero or more where it is accepted, and else the number of the refusal, negated.
 * Ask STOCK_REFUSED(answer) before it is used as a place or a length, and STOCK_NUMBER(answer) for the refusal. (The
 * first card's place is 2, and 2 is a refusal's number too.) A refusal changes no byte of what was lent.
 *
 * WHAT A CALLER OWES. Each pointer leads to as many bytes as its length says; where the length is 0 any pointer will
 * do, a null pointer too. Where something is written (a buffer, a text, an array of fields), nothing else that is
 * passed in the same call overlaps it. What is only read may overlap: a serial may be looked up out of the book that
 * it stands in. During a call no other thread writes what is lent, nor reads what is written. There is nothing else
 * to check: any bytes, lengths and numbers are answered. The library keeps nothing between calls, so calls on
 * different buffers may go on at the same time in several threads.
 *
 * For x86-64 with a 64-bit size_t. Link with the archive that `rt lib` makes in crates/stock_c. */
#ifndef STOCK_H
#define STOCK_H

#include <stddef.h>
#include <stdint.h>

#if !defined(__x86_64__) && !defined(_M_X64)
#error "the stock library is for x86-64"
#endif

/* size_t has 64 bits */
typedef char stock_size_t_has_64_bits[sizeof(size_t) == 8 ? 1 : -1];

/* The refusals that these functions give, by their numbers. */
enum {
    STOCK_NOT_A_SERIAL = 1,  /* not 1 to 12 ASCII digits */
    STOCK_NOT_A_BOOK = 2,    /* the book is not well formed, or more bytes are said to be used than there are */
    STOCK_WITHDRAWN = 3,     /* the serial is withdrawn, whether or not it has a card */
    STOCK_NO_CARD = 4,       /* no card has that serial */
    STOCK_OUT_OF_RANGE = 12, /* a value is outside its range */
    STOCK_PRESENT = 19,      /* the serial is already in that section */
    STOCK_FULL = 20,         /* the section has 1024 cards, or 512 withdrawn serials */
    STOCK_NO_ROOM = 21       /* the buffer is too short for the longer book */
};

/* Whether an answer is a refusal, and which. */
#define STOCK_REFUSED(answer) ((answer) < 0)
#define STOCK_NUMBER(answer) ((size_t)-(answer))

#define STOCK_FIELDS 8        /* fields of a card */
#define STOCK_SERIAL_DIGITS 12 /* digits of the longest serial */
#define STOCK_SERIAL_BYTES 13 /* a serial in a book */
#define STOCK_CARD_BYTES 37   /* a card */
#define STOCK_BOOK_BYTES 44548 /* the longest book */
#define STOCK_WORDS_BYTES 40  /* room for the words of any refusal; the longest are 37 bytes */

#ifdef __cplusplus
extern "C" {
#endif

/* The place, in the book, of the first of the 37 bytes of the card with this serial. The whole book is checked each
 * time. Refusals, in this order: 1, 2, 3, 4. */
int64_t stock_lookup(const uint8_t *book, size_t book_length, const uint8_t *serial, size_t serial_length);

/* Adds a card to the book in the first `used` bytes of the buffer, last among the cards, and gives the
 * book's new length. What stands behind the cards moves up by 37; bytes past the new length stay.
 * A withdrawn serial may be added. Refusals, in this order: 1, 12, 2, 19, 20, 21. */
int64_t stock_add(uint8_t *buffer, size_t buffer_length, size_t used, const uint8_t *serial, size_t serial_length,
                  int64_t voffs, int64_t ioffs, int64_t vgain, int64_t igain,
                  int64_t phase, int64_t irmsoffs, int64_t squelch, int64_t poffs);

/* Withdraws a serial, last among the withdrawn ones, in the book in the first `used` bytes of the buffer,
 * and gives the book's new length. Bytes past it stay. Refusals, in this order: 1, 2, 19, 20, 21. */
int64_t stock_withdraw(uint8_t *buffer, size_t buffer_length, size_t used, const uint8_t *serial, size_t serial_length);

/* 0 for a well-formed book, and else -2. */
int64_t stock_check(const uint8_t *book, size_t book_length);

/* A walk: the place of card k, and of withdrawn serial k, both from 0 and in the order of the book; 0, which is the
 * place of none, where there is no entry k. The 37 or 13 bytes at a place lie within the book. The book is not
 * checked: of a well-formed one these are its cards and its withdrawn serials. */
size_t stock_card(const uint8_t *book, size_t book_length, size_t k);
size_t stock_withdrawn(const uint8_t *book, size_t book_length, size_t k);

/* Puts the digits of the serial that a card or a withdrawn entry begins with at the front of a text, with no end
 * mark, and gives their number. The entry's length is 13 or more, of which the first 13 are looked at: a card's 37 will
 * do. The text needs as many bytes as there are digits; 12 are always enough. Refusals: 2 where the entry is shorter
 * than 13 bytes or does not begin with those of a serial, 21 where the text is too short. */
int64_t stock_serial(const uint8_t *entry, size_t entry_length, uint8_t *text, size_t text_length);

/* Puts the eight fields of the card in 37 bytes at the front of an array, in order, and gives 8. The card's length is
 * 37, neither less nor more; fields_length counts numbers, not bytes, and is 8 or more. Refusals: 2 where these are not
 * the 37 bytes of a card, 21 where the array has fewer than eight places. */
int64_t stock_fields(const uint8_t *card, size_t card_length, int64_t *fields, size_t fields_length);

/* Puts the words of a refusal's number, 1 to 21, at the front of a text, with no end mark, and gives how many bytes
 * they are: 0 where the number has none, or where they do not fit (then nothing is written). */
size_t stock_words(size_t number, uint8_t *text, size_t text_length);

#ifdef __cplusplus
}
#endif

#endif

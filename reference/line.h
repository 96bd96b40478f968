/* line.h: a line of the console, taken apart into one step. CONSOLE.md has the grammar. */
#ifndef LINE_H
#define LINE_H

#include <stdbool.h>
#include <stddef.h>
#include <stdint.h>

#include "sources.h"
#include "words.h"

enum { LINE_MOST = 131071, SLICE_MOST = 8192, NUMBERS_MOST = 13, PACKET_MOST = 4096, ROOM_MOST = 255 };

enum kind { START, OPEN, WRITE, COMMIT, DROP, HOLD, READ, POLL, BLOCK, RESET, CARDS, HELP };

struct step {
    enum kind kind;
    int64_t number[NUMBERS_MOST]; /* in the line's order; a name has become its number */
    size_t numbers;
    const unsigned char *text; /* of an open: within the line */
    size_t text_length;
    int32_t sample[SLICES][SLICE_MOST];
    size_t samples[SLICES];
    unsigned char packet[PACKET_MOST];
    size_t packet_length;
};

/* Answers NONE, or why a line of at most LINE_MOST bytes is no step. */
enum unread line_parse(struct step *step, const unsigned char *line, size_t length);

#endif

/* words.h: what the console says of steps that are refused and of lines that are not read, and its help. */
#ifndef WORDS_H
#define WORDS_H

/* Why a line is no step; NONE of one that is. */
enum unread {
    NONE,
    TOO_LONG,
    NO_STEP,
    ITEM_MISSING,
    NO_NUMBER,
    NO_FIELD,
    NO_REGISTER,
    MORE_ITEMS,
    FEW_BARS,
    MORE_SAMPLES,
    NO_SAMPLE,
    NO_ROOM,
    NO_BYTE,
    MORE_BYTES
};

const char *unread_words(enum unread unread);

/* The words of one of document 01's refusals that a step of the console can meet. */
const char *refusal_words(int refusal);

/* All lines of the help, each with its line feed. */
extern const char help_lines[];

#endif

/* line.c: takes a line apart, item by item. */
#include "line.h"

#include <string.h>

#include "names.h"

/* What is left of the line. */
struct rest {
    const unsigned char *at, *end;
};

/* What stands between two spaces; it may be empty. */
struct item {
    const unsigned char *at;
    size_t length;
};

/* A step's word, and its items: n a number, o one that may be left out with all behind it, f a field, w a register by
   its word address, b by its byte address, t text. */
struct form {
    const char *word;
    enum kind kind;
    const char *items;
};

static bool at_end(const struct rest *rest)
{
    return rest->at == rest->end;
}

/* Takes one byte if it is next. */
static bool take_byte(struct rest *rest, unsigned char byte)
{
    if (at_end(rest) || *rest->at != byte)
        return false;
    rest->at++;
    return true;
}

/* All up to the next space or the line's end. */
static struct item take_item(struct rest *rest)
{
    struct item item = {rest->at, 0};

    while (!at_end(rest) && *rest->at != ' ')
        rest->at++;
    item.length = (size_t)(rest->at - item.at);
    return item;
}

static bool is_word(struct item item, const char *word)
{
    return item.length == strlen(word) && memcmp(item.at, word, item.length) == 0;
}

static int digit_of(unsigned char byte, int base)
{
    int digit = -1;

    if (byte >= '0' && byte <= '9')
        digit = byte - '0';
    else if (byte >= 'a' && byte <= 'f')
        digit = byte - 'a' + 10;
    else if (byte >= 'A' && byte <= 'F')
        digit = byte - 'A' + 10;
    return digit < base ? digit : -1;
}

/* At least one digit, and nothing else, coming to at most `most`. */
static bool all_digits(struct rest digits, int base, uint64_t most, uint64_t *value)
{
    const unsigned char *first = digits.at;

    *value = 0;
    for (; !at_end(&digits); digits.at++) {
        int digit = digit_of(*digits.at, base);

        if (digit < 0 || *value > (most - (uint64_t)digit) / (uint64_t)base)
            return false;
        *value = *value * (uint64_t)base + (uint64_t)digit;
    }
    return digits.at != first;
}

static bool is_number(struct item item, int64_t *number)
{
    struct rest rest = {item.at, item.at + item.length};
    uint64_t size;
    bool hexadecimal = item.length >= 2 && item.at[0] == '0' && item.at[1] == 'x';
    bool negative = !hexadecimal && take_byte(&rest, '-');

    if (hexadecimal)
        rest.at += 2;
    if (!all_digits(rest, hexadecimal ? 16 : 10, (uint64_t)INT64_MAX + negative, &size))
        return false;
    if (size > (uint64_t)INT64_MAX)
        *number = INT64_MIN;
    else
        *number = negative ? -(int64_t)size : (int64_t)size;
    return true;
}

/* A number, or what a name stands for where the form has a name. */
static enum unread value_of(struct item item, char what, int64_t *number)
{
    if (is_number(item, number))
        return NONE;
    if (what == 'n' || what == 'o')
        return NO_NUMBER;
    if (what == 'f')
        *number = field_named(item.at, item.length);
    else
        *number = register_named(item.at, item.length) * (what == 'b' ? 3 : 1);
    if (*number != 0)
        return NONE;
    return what == 'f' ? NO_FIELD : NO_REGISTER;
}

/* The rest of the line, whatever bytes it has. */
static void take_text(struct step *step, struct rest *rest)
{
    step->text = rest->at;
    step->text_length = (size_t)(rest->end - rest->at);
    rest->at = rest->end;
}

static enum unread take_items(struct step *step, struct rest *rest, const char *items)
{
    enum unread unread = NONE;

    step->numbers = 0;
    for (size_t k = 0; items[k] != '\0' && unread == NONE; k++) {
        if (items[k] == 'o' && at_end(rest))
            break;
        if (!take_byte(rest, ' '))
            return ITEM_MISSING;
        if (items[k] == 't')
            take_text(step, rest);
        else
            unread = value_of(take_item(rest), items[k], &step->number[step->numbers++]);
    }
    return unread != NONE || at_end(rest) ? unread : MORE_ITEMS;
}

/* A space and a bar. */
static bool take_bar(struct rest *rest)
{
    struct rest ahead = *rest;

    if (!take_byte(&ahead, ' ') || !take_byte(&ahead, '|'))
        return false;
    *rest = ahead;
    return true;
}

static enum unread take_sample(struct rest *rest, int32_t *slice, size_t *count)
{
    int64_t number;

    if (!take_byte(rest, ' '))
        return NO_SAMPLE; /* right behind the bar */
    if (*count == SLICE_MOST)
        return MORE_SAMPLES;
    if (!is_number(take_item(rest), &number) || number < INT32_MIN || number > INT32_MAX)
        return NO_SAMPLE;
    slice[(*count)++] = (int32_t)number;
    return NONE;
}

/* Each slice but the last ends with a bar, the last with the line. */
static enum unread take_block(struct step *step, struct rest *rest)
{
    enum unread unread = NONE;

    for (int which = 0; which < SLICES; which++) {
        bool last = which == SLICES - 1;

        step->samples[which] = 0;
        while (unread == NONE && !(last ? at_end(rest) : take_bar(rest)))
            unread = at_end(rest) ? FEW_BARS : take_sample(rest, step->sample[which], &step->samples[which]);
    }
    return unread;
}

static enum unread take_packet_byte(struct step *step, struct item item)
{
    struct rest digits = {item.at, item.at + item.length};
    uint64_t byte;

    if (step->packet_length == PACKET_MOST)
        return MORE_BYTES;
    if (item.length != 2 || !all_digits(digits, 16, 255, &byte))
        return NO_BYTE;
    step->packet[step->packet_length++] = (unsigned char)byte;
    return NONE;
}

static enum unread take_poll(struct step *step, struct rest *rest)
{
    enum unread unread = NONE;
    int64_t room;

    if (!take_byte(rest, ' '))
        return ITEM_MISSING;
    if (!is_number(take_item(rest), &room) || room < 0 || room > ROOM_MOST)
        return NO_ROOM;
    step->number[0] = room;
    step->packet_length = 0;
    while (unread == NONE && take_byte(rest, ' '))
        unread = take_packet_byte(step, take_item(rest));
    return unread;
}

enum unread line_parse(struct step *step, const unsigned char *line, size_t length)
{
    static const struct form form[] = {
        {"start", START, "nnwwwwwwooooo"},
        {"open", OPEN, "nt"},
        {"write", WRITE, "nfn"},
        {"commit", COMMIT, "n"},
        {"drop", DROP, "n"},
        {"hold", HOLD, "n"},
        {"read", READ, "nb"},
        {"poll", POLL, ""},
        {"block", BLOCK, ""},
        {"reset", RESET, "n"},
        {"cards", CARDS, ""},
        {"help", HELP, ""},
    };
    const size_t forms = sizeof form / sizeof form[0];
    struct rest rest = {line, line + length};
    struct item word = take_item(&rest);
    size_t k = 0;

    while (k < forms && !is_word(word, form[k].word))
        k++;
    if (k == forms)
        return NO_STEP;
    step->kind = form[k].kind;
    if (step->kind == POLL)
        return take_poll(step, &rest);
    return step->kind == BLOCK ? take_block(step, &rest) : take_items(step, &rest, form[k].items);
}

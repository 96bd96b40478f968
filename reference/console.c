/* console.c: the program reference-console: a step a line on standard input, an answer to each on standard output. */
#include <inttypes.h>
#include <stdio.h>

#include "line.h"
#include "module.h"

/* A line without its end. A longer line keeps its first bytes. */
struct line {
    unsigned char byte[LINE_MOST];
    size_t length;
};

/* False when nothing is left. A carriage return right before the line feed or the end of the input is no part of the
 * line. */
static bool next_line(struct line *line)
{
    int byte = getchar(), last = EOF;

    if (byte == EOF)
        return false;
    line->length = 0;
    while (byte != EOF && byte != '\n') {
        if (line->length < LINE_MOST)
            line->byte[line->length] = (unsigned char)byte;
        line->length++;
        last = byte;
        byte = getchar();
    }
    if (last == '\r')
        line->length--;
    return true;
}

/* What an accepted step says after its ok. */
struct said {
    int64_t value;
    struct held held;
    struct reply reply;
};

/* Settings that the line leaves out are at their lowest. A refused start keeps the module. */
static int start(struct module *module, const struct step *step)
{
    static struct module fresh;
    int64_t setting[NUMBERS_MOST - 2 - SLOTS] = {1, 0, 0, 0, 0};
    struct alarm_settings settings;
    int refusal;

    for (size_t k = 2 + SLOTS; k < step->numbers; k++)
        setting[k - 2 - SLOTS] = step->number[k];
    settings = (struct alarm_settings){setting[0], setting[1], setting[2], setting[3]};
    refusal = module_start(&fresh, step->number[0], step->number[1], step->number + 2, &settings, setting[4]);
    if (refusal == 0)
        *module = fresh;
    return refusal;
}

static int block(struct module *module, const struct step *step)
{
    struct slice slice[SLICES];

    for (int which = 0; which < SLICES; which++)
        slice[which] = (struct slice){step->sample[which], step->samples[which]};
    return module_block(module, slice);
}

static int take_step(struct module *module, const struct step *step, struct said *said)
{
    const int64_t *number = step->number;

    switch (step->kind) {
    case START:
        return start(module, step);
    case OPEN:
        return module_open(module, number[0], step->text, step->text_length);
    case WRITE:
        return module_write(module, number[0], number[1], number[2]);
    case COMMIT:
        return module_commit(module, number[0]);
    case DROP:
        return module_drop(module, number[0]);
    case HOLD:
        return module_hold(module, number[0], &said->held);
    case READ:
        return module_read(module, number[0], number[1], &said->value);
    case POLL:
        return module_poll(module, step->packet, step->packet_length, number[0], &said->reply);
    case BLOCK:
        return block(module, step);
    case RESET:
        return module_reset(module, number[0]);
    case CARDS:
    case HELP:
        break;
    }
    return 0;
}

static void put_serial(const struct serial *serial)
{
    printf(" %.*s", (int)serial->length, (const char *)serial->digit);
}

/* The serial of a card, if there is one. */
static void put_card(bool there, const struct card *card)
{
    if (there)
        put_serial(&card->serial);
    else
        fputs(" -", stdout);
}

static void put_held(const struct held *held)
{
    printf(" %" PRIu32, held->number);
    put_serial(&held->serial);
    for (int which = 0; which < SLICES; which++)
        printf(" %" PRId64, held->clipped.of[which]);
    fputs(held->alarms & SAG ? " SAG" : " -", stdout);
    fputs(held->alarms & SURGE ? " SURGE" : " -", stdout);
}

static void put_reply(const struct reply *reply)
{
    for (size_t k = 0; k < reply->length; k++)
        printf(" %02X", (unsigned)reply->byte[k]);
}

static void put_accepted(const struct module *module, enum kind kind, const struct said *said)
{
    fputs("ok", stdout);
    if (kind == HOLD) {
        put_held(&said->held);
    } else if (kind == READ) {
        printf(" %" PRId64, said->value);
    } else if (kind == POLL) {
        put_reply(&said->reply);
    } else if (kind == CARDS) {
        put_card(module->has_card, &module->card);
        put_card(module->card_waits, &module->waiting);
    }
    putchar('\n');
}

static void answer(struct module *module, const struct step *step)
{
    struct said said;
    int refusal = take_step(module, step, &said);

    if (refusal != 0)
        printf("REFUSED %d: %s\n", refusal, refusal_words(refusal));
    else if (step->kind == HELP)
        fputs(help_lines, stdout);
    else
        put_accepted(module, step->kind, &said);
}

int main(void)
{
    static const int64_t nothing[SLOTS];
    static struct module module;
    static struct line line;
    static struct step step;

    module_start(&module, 0, 0, nothing, &(struct alarm_settings){0}, 0); /* refused: the module of a refused start */
    while (next_line(&line)) {
        enum unread unread = TOO_LONG;

        if (line.length == 0 || line.byte[0] == '#')
            continue;
        if (line.length <= LINE_MOST)
            unread = line_parse(&step, line.byte, line.length);
        if (unread == NONE)
            answer(&module, &step);
        else
            printf("UNREAD: %s\n", unread_words(unread));
    }
    return fflush(stdout) == 0 && !ferror(stdin) ? 0 : 1;
}

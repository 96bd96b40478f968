/* module.c: start, the steps at the ports, the poll and the reset, each with its checks in the order of documents 01
   and 02. */
#include "module.h"

#include <string.h>

static void configure(struct module *module, int64_t configuration)
{
    for (int which = 0; which < SOURCES; which++)
        module->source[which] = source_from(configuration, which);
}

static void become_fresh(struct module *module)
{
    static const struct alarm_settings lowest = {.half_cycle = 1};

    memset(module, 0, sizeof *module);
    module->samples = 1;
    module->bucket = 1;
    for (size_t k = 0; k < SLOTS; k++)
        module->slot[k] = OFF;
    alarms_start(&module->alarms, &lowest);
    configure(module, 0);
}

int module_start(struct module *module, int64_t samples, int64_t bucket, const int64_t words[SLOTS],
                 const struct alarm_settings *settings, int64_t configuration)
{
    become_fresh(module);
    if (samples < 1 || samples > 4096 || bucket < 1 || bucket > (INT64_C(1) << 48) - 1)
        return 7;
    for (size_t k = 0; k < SLOTS; k++)
        if (slot_from_word(words[k]) == NO_SUCH)
            return 7;
    if (!alarm_settings_allowed(settings) || !configuration_allowed(configuration))
        return 7;
    module->samples = samples;
    module->bucket = bucket;
    for (size_t k = 0; k < SLOTS; k++)
        module->slot[k] = slot_from_word(words[k]);
    alarms_start(&module->alarms, settings);
    configure(module, configuration);
    return 0;
}

static bool is_port(int64_t port)
{
    return port == 0 || port == 1;
}

int module_open(struct module *module, int64_t port, const unsigned char *text, size_t length)
{
    struct serial serial;
    struct port *at;

    if (!is_port(port))
        return 8;
    at = &module->port[port];
    if (at->open)
        return 9;
    if (!serial_from(&serial, text, length))
        return 1;
    at->open = true;
    at->card.serial = serial;
    memset(at->written, 0, sizeof at->written);
    return 0;
}

int module_write(struct module *module, int64_t port, int64_t field, int64_t value)
{
    struct port *at;

    if (!is_port(port))
        return 8;
    at = &module->port[port];
    if (!at->open)
        return 10;
    if (field < 1 || field > FIELDS)
        return 11;
    if (!field_allows((size_t)field - 1, value))
        return 12;
    at->card.field[field - 1] = value;
    at->written[field - 1] = true;
    return 0;
}

int module_commit(struct module *module, int64_t port)
{
    struct port *at;

    if (!is_port(port))
        return 8;
    at = &module->port[port];
    if (!at->open)
        return 10;
    for (size_t k = 0; k < FIELDS; k++)
        if (!at->written[k])
            return 13;
    module->waiting = at->card;
    module->card_waits = true;
    at->open = false;
    return 0;
}

int module_drop(struct module *module, int64_t port)
{
    if (!is_port(port))
        return 8;
    if (!module->port[port].open)
        return 10;
    module->port[port].open = false;
    return 0;
}

int module_hold(struct module *module, int64_t port, struct held *held)
{
    const struct reading *closed = &module->closed;

    memset(held, 0, sizeof *held);
    if (!is_port(port))
        return 8;
    if (!module->some_closed)
        return 14;
    module->port[port].hold = *closed;
    module->port[port].held = true;
    *held = (struct held){closed->number, closed->serial, closed->clipped, module->alarms.set};
    return 0;
}

int module_read(const struct module *module, int64_t port, int64_t byte_address, int64_t *value)
{
    if (!is_port(port))
        return 8;
    if (!module->port[port].held)
        return 15;
    return register_read(&module->port[port].hold.registers, module->slot, byte_address, value);
}

int module_poll(struct module *module, const unsigned char *packet, size_t length, int64_t room, struct reply *reply)
{
    struct held held;

    packet_reply(reply, packet, length, module->some_closed ? &module->closed.registers : NULL, module->slot);
    if (reply->length > (size_t)room) {
        reply->length = 0;
        return 21;
    }
    if (reply->length > 1) /* registers are sent */
        module_hold(module, 1, &held);
    return 0;
}

int module_reset(struct module *module, int64_t mask)
{
    if (!alarm_mask_allowed(mask))
        return 12;
    module->alarms.set &= ~mask;
    return 0;
}

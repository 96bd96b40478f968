/* packet.c: judges a packet of the serial line: its frame, then its commands in order, and replies. */
#include "packet.h"

#include <stdbool.h>

enum { OUR_ID = 1, HEADER = 0xAA };

/* Reply codes of document 004, and two that are no byte: the packet is judged further, or nothing is said. */
enum code {
    GOES_ON = 0,
    SILENT = -1,
    ACKNOWLEDGE_DATA = 0xAA,
    ACKNOWLEDGE = 0xAD,
    NACK = 0xB0,
    NOT_IMPLEMENTED = 0xBC,
    CHECKSUM_FAILED = 0xBD,
    BUFFER_OVERFLOW = 0xBF
};

/* A packet at work: the commands still to come, and what those before have left. */
struct work {
    const unsigned char *at, *end;
    const struct registers *registers;
    const int *slot;
    bool selected;
    int64_t pointer;
    unsigned char data[DATA_MOST];
    size_t data_length; /* may pass DATA_MOST: only the last command's end judges it */
};

static int sum_of(const unsigned char *byte, size_t count)
{
    int sum = 0;

    for (size_t k = 0; k < count; k++)
        sum = (sum + byte[k]) % 256;
    return sum;
}

/* The frame: header, count, sum. */
static enum code judge_frame(const unsigned char *packet, size_t length)
{
    if (length < 2 || packet[0] != HEADER || packet[1] < FRAME || length < packet[1])
        return SILENT;
    if (length > packet[1])
        return BUFFER_OVERFLOW;
    if (packet[length - 1] != sum_of(packet, length - 1))
        return CHECKSUM_FAILED;
    return length == FRAME ? NACK : GOES_ON;
}

/* How many bytes stand behind a command at least; those of a write are never needed, for it is refused. */
static int parameters_of(int command)
{
    if (command == 0xA3)
        return 2;
    return command == 0xA1 || command == 0xA2 || command == 0xCF || command == 0xE0;
}

static enum code select_device(struct work *work, int id)
{
    if (id > OUR_ID)
        return SILENT;
    work->selected = id == OUR_ID;
    return GOES_ON;
}

static void set_pointer(struct work *work, int command, const unsigned char *parameter)
{
    int64_t low = work->pointer % 256, high = work->pointer / 256;

    if (command == 0xA0) {
        low = 0;
        high = 0;
    } else if (command == 0xA2) {
        high = parameter[0];
    } else {
        low = parameter[0];
        high = command == 0xA3 ? parameter[1] : high;
    }
    work->pointer = high * 256 + low;
}

static void add_data(struct work *work, int byte)
{
    if (work->data_length < DATA_MOST)
        work->data[work->data_length] = (unsigned char)byte;
    work->data_length++;
}

/* Reads a register at the pointer, which moves on. */
static bool read_one(struct work *work)
{
    int64_t value;

    if (work->registers == NULL || register_read(work->registers, work->slot, work->pointer, &value) != 0)
        return false;
    for (int bits = 0; bits < 24; bits += 8)
        add_data(work, (int)((uint64_t)value >> bits & 0xFF));
    work->pointer += 3;
    return true;
}

static enum code read_bytes(struct work *work, int count)
{
    if (count % 3 != 0)
        return NACK;
    for (; count > 0; count -= 3)
        if (!read_one(work))
            return NACK;
    return GOES_ON;
}

/* The next command with its parameters. */
static enum code take_command(struct work *work)
{
    int command = *work->at++, group = command >> 4;
    const unsigned char *parameter = work->at;
    bool whole = work->end - work->at >= parameters_of(command);

    if (group == 0xC && whole) {
        work->at += parameters_of(command);
        return select_device(work, command == 0xCF ? parameter[0] : command - 0xC0);
    }
    if (!work->selected)
        return SILENT;
    if (command < 0xA0 || (command > 0xA3 && command < 0xC0) || command > 0xEF)
        return NOT_IMPLEMENTED;
    if (!whole || group == 0xD)
        return NACK;
    work->at += parameters_of(command);
    if (group == 0xE)
        return read_bytes(work, command == 0xE0 ? parameter[0] : command - 0xE0);
    set_pointer(work, command, parameter);
    return GOES_ON;
}

static void put_byte(struct reply *reply, int byte)
{
    reply->byte[reply->length++] = (unsigned char)byte;
}

static void put_data(struct reply *reply, const struct work *work)
{
    put_byte(reply, ACKNOWLEDGE_DATA);
    put_byte(reply, (int)work->data_length + FRAME);
    for (size_t k = 0; k < work->data_length; k++)
        put_byte(reply, work->data[k]);
    put_byte(reply, sum_of(reply->byte, reply->length));
}

void packet_reply(struct reply *reply, const unsigned char *packet, size_t length, const struct registers *registers,
                  const int slot[SLOTS])
{
    struct work work = {.registers = registers, .slot = slot, .selected = true};
    enum code code = judge_frame(packet, length);

    reply->length = 0;
    if (code == GOES_ON) {
        work.at = packet + 2;
        work.end = packet + length - 1;
    }
    while (code == GOES_ON && work.at != work.end)
        code = take_command(&work);
    if (code == GOES_ON && work.data_length > DATA_MOST)
        code = BUFFER_OVERFLOW;
    if (code == GOES_ON && work.data_length > 0)
        put_data(reply, &work);
    else if (code != SILENT)
        put_byte(reply, code == GOES_ON ? ACKNOWLEDGE : (int)code);
}

"""Packets of document 004's SSI protocol: cut from a stream of bytes for tools/serial-line, and which registers one reads for
tools/session.py."""

HEADER, LEAST = 0xAA, 3         # the first byte of a packet, and how many it has at the least: header, count, checksum
BAUD = 38_400                   # document 004's default: eight bits, no parity, one stop bit
SILENCE = 50 * 10 / BAUD        # seconds: 50 byte times of ten bits each, document 004's limit for a host too
DATA = 0xAA                     # the code of a reply with registers, and the codes that stand alone
CODES = {0xAD: "acknowledged", 0xB0: "refused", 0xBC: "no such command", 0xBD: "checksum failed", 0xBF: "too long"}


class Cutter:
    """Cuts packets by header and count from bytes as they come. The time is handed in, in seconds."""

    def __init__(self):
        self.waiting, self.last = b"", 0.0

    def take(self, some, now):
        """The packets that are whole with these bytes."""
        self.waiting, self.last = self.waiting + some, now
        whole = []
        while (packet := self.first()):
            whole.append(packet)
        return whole

    def first(self):
        """Takes off what is noise and, where it is whole, the first packet; none where it is not."""
        come = self.waiting
        at = next((k for k, byte in enumerate(come) if byte == HEADER and (k + 1 == len(come) or come[k + 1] >= LEAST)), len(come))
        self.waiting = come[at:]
        if len(self.waiting) < LEAST or len(self.waiting) < self.waiting[1]:
            return b""
        packet, self.waiting = self.waiting[:self.waiting[1]], self.waiting[self.waiting[1]:]
        return packet

    def patience(self, now):
        """How long to wait for another byte before `idle` is told; None where nothing is incomplete."""
        return max(0.0, self.last + SILENCE - now) if self.waiting else None

    def idle(self, now):
        """No byte came up to now: an incomplete packet is given up with all its bytes, as the host has given it up by then."""
        if now - self.last >= SILENCE:
            self.waiting = b""


def reads_of(packet):
    """The byte addresses of the registers that a packet reads, in order; of one whose reply has data, so nothing in it is wrong."""
    payload, pointer, found = iter(packet[2:-1]), 0, []
    for command in payload:
        if command in (0xA0, 0xA3):
            pointer = 0 if command == 0xA0 else next(payload) | next(payload) << 8
        elif command == 0xA1:
            pointer = pointer & 0xFF00 | next(payload)
        elif command == 0xA2:
            pointer = pointer & 0xFF | next(payload) << 8
        elif command == 0xCF:
            next(payload)
        elif command >= 0xE0:
            end = pointer + (command & 15 or next(payload))
            found += range(pointer, end, 3)
            pointer = end
    return found

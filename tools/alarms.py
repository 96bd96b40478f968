"""Sag and surge on the half cycle (document 02, A3), worked out from the samples: tools/session.py holds a hold's answer to it."""
from collections import deque

SAG, SURGE = 1 << 21, 1 << 9    # status bits of document 004
NAMES = {SAG: "sag", SURGE: "surge"}


def named(bits):
    """The alarms of a mask, by name."""
    return " and ".join(name for bit, name in NAMES.items() if bits & bit) or "none"


class Alarms:
    """Both alarms since a start. The sum is worked anew from the last W squares at every sample: nothing is kept up."""

    def __init__(self, w=1, sag=0, surge=0, sticky=0):
        self.w, self.sag, self.surge, self.sticky = w, sag, surge, sticky
        self.squares = deque(maxlen=w)
        self.met = self.set = 0     # what the comparison after the last sample gives, and what is set

    @property
    def on(self):
        return bool(self.sag or self.surge)

    def compared(self):
        """The alarms that the last W squares give; none before W samples came."""
        if not self.on or len(self.squares) < self.w:
            return 0
        total = sum(self.squares)
        low = self.sag and total < self.w * self.sag**2
        high = self.surge and total > self.w * self.surge**2
        return (SAG if low else 0) | (SURGE if high else 0)

    def sample(self, voltage):
        """The next voltage, corrected and clipped."""
        self.squares.append(voltage**2)
        self.met = self.compared()
        self.set = self.met | self.set & self.sticky

    def reset(self, mask):
        if mask & ~(SAG | SURGE):
            raise ValueError(f"a reset with the mask {mask}")
        self.set &= ~mask

    def answer(self):
        """Both as a hold answers them."""
        return " ".join(name.upper() if self.set & bit else "-" for bit, name in NAMES.items())

    def levels(self):
        """The settings as lines of text; none where both alarms are off."""
        said = [f"half a cycle is {self.w:,} sample{'' if self.w == 1 else 's'}"] if self.on else []
        for bit, level, beyond in ((SAG, self.sag, "below"), (SURGE, self.surge, "above")):
            if level:
                said.append(f"{NAMES[bit]} {beyond} {level:,}{', until reset' if self.sticky & bit else ''}")
        return said

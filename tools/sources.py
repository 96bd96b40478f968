"""The current sources IA and IB that a configuration makes of inputs S1 and S3 (document 02, A5), in words: tools/session.py tells them
with a start."""

NAMES = ("IA", "IB")


def multipliers(config, source):
    """M1 and M3 of source 0, which is IA, or 1, IB. Codes 0 to 3 are -1 to 2; IA has the lower four bits, M1 the lower two of each four."""
    code = config >> 4 * source & 15
    return (code & 3) - 1, (code >> 2) - 1


def formula(m1, m3):
    """A source as a sum; halved where neither multiplier is 0."""
    signs = {-1: "-", 1: "", 2: "2 "}
    one, two = (f"{signs[m]}{name}" if m else "" for m, name in ((m1, "S1"), (m3, "S3")))
    if one and two:
        return f"({one} {'-' if m3 < 0 else '+'} {two.removeprefix('-')}) / 2"
    return one or two or "0"


def sources(config):
    """Both sources as a line of text."""
    return ", ".join(f"{name} = {formula(*multipliers(config, k))}" for k, name in enumerate(NAMES))

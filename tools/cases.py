"""Images built by hand, each with the line that plancheck must print for it.

A task is (C, T, D, J, S): cost, period, deadline, jitter and longest bus section.
A frame is (cost, deadline, gap). The byte format is in docs/IMAGE.md.
"""

END = b"EN"


def number(value, width):
    return value.to_bytes(width, "big")


def task(channel, numbers, label=None):
    """The record of a task: 37 bytes."""
    c, t, d, j, s = numbers
    name = b"channel-%d" % channel if label is None else label
    return (b"TK" + name.ljust(16, b"\0") + number(channel, 1)
            + number(c, 4) + number(t, 4) + number(d, 4) + number(j, 4) + number(s, 2))


def frame(cost, deadline, gap):
    """The record of a frame: 14 bytes."""
    return b"RF" + number(cost, 4) + number(deadline, 4) + number(gap, 4)


def image(tasks=(), frames=()):
    """Tasks at channels 0, 1, .. in this order, then the frames, then the end mark."""
    records = [task(channel, numbers) for channel, numbers in enumerate(tasks)]
    records += [frame(*numbers) for numbers in frames]
    return b"".join(records) + END


def longest():
    """The longest image that can pass: 64 tasks, 16 frames, 2594 bytes."""
    return image([(1, 1000, 1000, 0, 0)] * 64, [(1, 1000, 1000)] * 16)


FIRST = (2, 5, 4, 0, 0)
SECOND = (4, 10, 7, 1, 2)
SIX = [(7, 60, 37, 6, 2), (19, 160, 70, 18, 9), (60, 380, 280, 30, 18),
       (47, 460, 590, 40, 14), (53, 510, 320, 37, 16), (70, 490, 360, 46, 13)]
FRAMES = [(3, 4, 5), (1, 2, 5)]
HALF = (390_625, 781_250, 781_250, 0, 0)

# What it shows, the image, the line without its end.
PLANS = [
    ("no task and no frame", image(), "yes 0"),
    ("one task", image([FIRST]), "yes 2"),
    ("two tasks", image([FIRST, SECOND]), "yes 8"),
    ("a section one tick too long", image([FIRST, (4, 10, 7, 1, 3)]), "late 4 5 37"),
    ("full utilization", image([(10, 10, 10, 0, 0)]), "yes 10"),
    ("a deadline one tick too short", image([(10, 10, 9, 0, 0)]), "late 9 10 0"),
    ("full utilization with jitter", image([(10, 10, 25, 5, 0)]), "refused 10 0"),
    ("six tasks", image(SIX), "yes 329"),
    ("a train alone", image([], FRAMES), "yes 3"),
    ("late over a train", image([(3, 10, 5, 0, 0)], FRAMES), "late 5 6 0"),
    ("in time over a train", image([(3, 10, 6, 0, 0)], FRAMES), "yes 7"),
    ("busy period at the limit", image([HALF, (128, 256, 256, 0, 0)]), "yes 100000000"),
    ("busy period past the limit", image([HALF, (129, 258, 258, 0, 0)]), "refused 10 37"),
    ("a late train is named by its first frame", image([FIRST], [(1, 5, 10), (5, 4, 10)]), "late 4 5 37"),
    ("a train that does not close is named by its first frame", image([FIRST], [(10, 20, 5)]), "refused 10 37"),
    ("greatest numbers", image([(10_000_000, 10_000_000, 100_000_000, 0, 65_535)]), "yes 10000000"),
    ("greatest jitter", image([(1, 10_000_000, 100_000_000, 9_999_999, 1)]), "yes 1"),
    ("64 tasks and 16 frames", longest(), "yes 65"),
]

FORMAT = [
    ("cost 0", image([FIRST, (0, 0, 0, 0, 1)]), "refused 1 37"),
    ("period above 10,000,000", image([(1, 10_000_001, 0, 0, 2)]), "refused 2 0"),
    ("gap 0", image([FIRST], [(1, 0, 0)]), "refused 2 37"),
    ("deadline 0", image([(1, 5, 0, 9, 2)]), "refused 3 0"),
    ("deadline 0 of a frame", image([], [(1, 0, 5)]), "refused 3 0"),
    ("jitter not below the period", image([(1, 5, 9, 5, 2)]), "refused 4 0"),
    ("jitter not below the deadline", image([(1, 9, 5, 5, 0)]), "refused 4 0"),
    ("section above the cost", image([(2, 5, 4, 0, 3)]), "refused 5 0"),
    ("a seventeenth frame", image([], [(1, 9, 99)] * 16 + [(0, 0, 0)]), "refused 6 224"),
    ("channel 64", task(63, FIRST) + task(64, FIRST) + END, "refused 7 37"),
    ("unknown mark", b"\0\0", "refused 12 0"),
    ("no bytes", b"", "refused 13 0"),
    ("half a mark", task(0, FIRST) + b"E", "refused 13 37"),
    ("a cut record", task(0, FIRST) + task(1, SECOND)[:36], "refused 13 37"),
    ("no end mark", task(0, FIRST) + frame(3, 4, 5), "refused 13 51"),
    ("a byte after the end mark", END + b"\0", "refused 14 2"),
    ("a bad record before bytes after the end", task(0, (0, 5, 4, 0, 0)) + END + b"\0", "refused 1 0"),
    ("no label", task(64, FIRST, label=b"") + END, "refused 15 0"),
    ("a gap in a label", task(0, FIRST, label=b"a\0b") + END, "refused 15 0"),
    ("a blank in a label", task(0, FIRST, label=b"a b") + END, "refused 15 0"),
    ("a label of sixteen bytes", task(0, FIRST, label=b"!~" * 8) + END, "yes 2"),
    ("channel 5 twice", task(5, FIRST) + task(5, (0, 0, 0, 0, 0)) + END, "refused 16 37"),
    ("task after frame", frame(3, 4, 5) + task(5, FIRST) + END, "refused 16 14"),
]

CASES = PLANS + FORMAT

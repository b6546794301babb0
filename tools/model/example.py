"""The shipped example: a bottling line before and after a release, by device and in the order of the calls."""

TIMER = ("/line/timer@1000", 0)
CLOCK = ("/line/line-clock@2000", 0)
DRIVE = ("/line/drive@3000", 0)
FAULT = ("/line/drive@3000", 1)
RECORDER = ("/line/batch-recorder@4000", 0)

CLAIM = [("C", None)]


def level(device):
    """A device that is claimed, then quiet, then completed."""
    return CLAIM + [("L", device), ("E", device)]


def tick():
    """A tick of the line clock that is claimed and completed before the clock is low again."""
    return CLAIM + [("E", CLOCK), ("L", CLOCK)]


START = [("U", TIMER), ("U", CLOCK), ("U", FAULT), ("U", RECORDER)]
FIRST_TICKS = [("H", TIMER)] + level(TIMER) + [("H", CLOCK)] + tick()
ALL_AT_ONCE = [("H", RECORDER), ("H", TIMER), ("H", CLOCK)]

# Each tree names the three devices that are active at once in an order of its own.
BEFORE = START + FIRST_TICKS + ALL_AT_ONCE + level(TIMER) + tick() + level(RECORDER)
AFTER = START + FIRST_TICKS + ALL_AT_ONCE + tick() + level(RECORDER) + level(TIMER)

# The guest is slow with the recorder: it claims no tick of the timer, and of two of the line clock only one.
SLOW = [("L", CLOCK), ("H", CLOCK), ("H", TIMER), ("L", TIMER), ("L", CLOCK), ("L", RECORDER), ("E", RECORDER)]
LATE = START + [("H", TIMER)] + level(TIMER) + [("H", RECORDER)] + CLAIM + [("H", CLOCK)] + SLOW + CLAIM + [("E", CLOCK)]

LISTS = {"line-before": BEFORE, "line-after": AFTER, "line-after-late": LATE}

COMPARISONS = [
    ("line-before", "line-before", "line-after", "line-after"),
    ("line-before", "line-before", "line-after", "line-after-late"),
]


def calls(steps, board):
    """Makes the calls on a board. Every completion is of a device that is in service."""
    numbers = {route.key: route.number for route in board.routes}
    for letter, device in steps:
        answer = board.call(letter, 0 if device is None else numbers[device])
        assert answer == "done" or letter == "C" and answer is not None

"""Rotations as plain numbers: legs, settings, calls with their frames, and what an answer has to keep."""
from collections import namedtuple

Leg = namedtuple("Leg", "q t r lo hi rate")
Settings = namedtuple("Settings", "total bounds windows")
# what stands: the minutes of the legs, kilograms and cents
Timing = namedtuple("Timing", "minutes cost")

OPEN_WINDOW = (0, 4095)
# name of a call: its kind, and the widths of its numbers in bytes
FRAMES = {"open": (1, (2,)), "bounds": (2, (1, 2, 2)), "window": (3, (1, 2, 2)), "lift": (4, (1,)), "total": (5, (2,))}


def frame(call):
    """The line of a call, which is a name and its numbers."""
    name, *numbers = call
    kind, widths = FRAMES[name]
    return "%02X" % kind + "".join("%0*X" % (2 * width, value) for value, width in zip(numbers, widths))


def book_frames(legs):
    """The lines that write the book: every leg, and every rate that is not 0."""
    adds = ["11%04X%04X%08X%04X%04X" % (leg.q, leg.t, leg.r % 2**32, leg.lo, leg.hi) for leg in legs]
    rates = ["12%02X%04X" % (i, leg.rate) for i, leg in enumerate(legs, 1) if leg.rate]
    return adds + rates


def text_of(legs, calls):
    """The text of a book and calls on its sheet."""
    lines = book_frames(legs) + [frame(call) for call in calls]
    return "".join(line + "\n" for line in lines).encode()


def replaced(items, place, item):
    return items[:place] + (item,) + items[place + 1 :]


def after(legs, settings, call):
    """The settings that a granted call leaves."""
    name, *numbers = call
    if name == "open":
        return Settings(numbers[0], tuple((leg.lo, leg.hi) for leg in legs), (OPEN_WINDOW,) * (len(legs) - 1))
    if name == "total":
        return settings._replace(total=numbers[0])
    place = numbers[0] - 1
    if name == "bounds":
        return settings._replace(bounds=replaced(settings.bounds, place, tuple(numbers[1:])))
    window = tuple(numbers[1:]) if name == "window" else OPEN_WINDOW
    return settings._replace(windows=replaced(settings.windows, place, window))


def stuck(settings):
    """The first leg at which no minutes are left, or None if there is a timing."""
    early = late = 0
    windows = settings.windows + ((settings.total, settings.total),)
    for leg, ((low, high), (first, last)) in enumerate(zip(settings.bounds, windows), 1):
        early, late = max(first, early + low), min(last, late + high)
        if late < early:
            return leg
    return None


def cost(legs, minutes):
    """Kilograms and cents of a timing."""
    kilograms = sum(leg.q * (m - leg.t) ** 2 + leg.r for leg, m in zip(legs, minutes))
    return kilograms, sum(leg.rate * m for leg, m in zip(legs, minutes))


def read_answer(line):
    """A timing, or number, layer, leg and line of a refusal."""
    data = bytes.fromhex(line)
    if data[0] == 0xEE:
        return data[1], data[2], data[3], int.from_bytes(data[4:6], "big")
    numbers = [int.from_bytes(data[i : i + 2], "big") for i in range(2, len(data) - 16, 2)]
    if data[0] != 0x81 or data[1] != len(numbers):
        raise ValueError("no answer to a call: " + line)
    return Timing(numbers, tuple(int.from_bytes(part, "big", signed=True) for part in (data[-16:-8], data[-8:])))


def fault(legs, settings, timing):
    """What is wrong with a timing for these settings, or None. Whether it is cheapest is not asked here."""
    if len(timing.minutes) != len(legs):
        return "the timing has %d legs" % len(timing.minutes)
    arrival = 0
    windows = settings.windows + ((settings.total, settings.total),)
    for leg, (m, bounds, window) in enumerate(zip(timing.minutes, settings.bounds, windows), 1):
        arrival += m
        if not bounds[0] <= m <= bounds[1]:
            return "leg %d takes %d minutes" % (leg, m)
        if not window[0] <= arrival <= window[1]:
            return "stop %d is reached at %d" % (leg, arrival)
    if timing.cost != cost(legs, timing.minutes):
        return "the cost is told as %s" % (timing.cost,)
    return None


def walk(legs, calls, answers):
    """Goes through calls and their answers: for each call the settings it would leave, and the timing told, or None where
    it was refused. Stops with ValueError at an answer that is wrong in itself."""
    answers = answers.decode().splitlines()
    head = len(book_frames(legs))
    if answers[:head] != ["80"] * head or len(answers) != head + len(calls):
        raise ValueError("the book is refused, or answers are missing")
    settings, steps = None, []
    for line, (call, answer) in enumerate(zip(calls, answers[head:]), head + 1):
        asked, told = after(legs, settings, call), read_answer(answer)
        if not isinstance(told, Timing):
            if stuck(asked) is None or told != (16, 3, stuck(asked), line):
                raise ValueError("line %d is refused: %s" % (line, answer))
            steps.append((asked, None))
            continue
        wrong = fault(legs, asked, told)
        if wrong:
            raise ValueError("line %d: %s" % (line, wrong))
        settings = asked
        steps.append((asked, told))
    return steps

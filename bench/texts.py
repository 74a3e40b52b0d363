"""The texts of frames that are measured. The same name gives the same text each time."""
import random
from collections import namedtuple
from rotations import Leg, after, frame, stuck, text_of

# calls 1 to `scene` open the sheet and lay its windows; those after them are measured
Text = namedtuple("Text", "name legs calls scene")

CHARACTERS = 65535
MINUTE_AREA, AMOUNT_AREA = 24000, 3000
WORST = "64 legs, 1 window, worst"


def largest_total(legs):
    """The greatest total that the program's work areas take on a book of so many legs."""
    return min(MINUTE_AREA // legs, AMOUNT_AREA // 2) - 1


def make_legs(rng, count, lo, hi, usual):
    """Legs with these ends, at their cheapest near the usual minutes. Few q and rates, so that kilograms are often equal."""
    legs = []
    for _ in range(count):
        t = min(hi, max(lo, usual + rng.randint(-usual // 3, usual // 3)))
        legs.append(Leg(rng.randint(0, 5), t, rng.randint(-900, 900), lo, hi, rng.randint(0, 9)))
    return legs


def make_window(rng, legs, total, stop, slack):
    """A window around the minute at which a stop is reached when all legs are equally long."""
    middle = total * stop // len(legs)
    return ("window", stop, max(0, middle - rng.randint(0, slack)), min(4095, middle + rng.randint(0, slack)))


def make_call(rng, legs, total):
    """Any change of a standing sheet: a total near this one, a window, a lift, or bounds."""
    share = total // len(legs)
    name = rng.choice(["bounds", "window", "window", "lift", "total"])
    if name == "total":
        return (name, rng.randint(total * 19 // 20, total))
    if name == "bounds":
        i = rng.randrange(len(legs))
        middle = min(legs[i].hi, max(legs[i].lo, share))
        return (name, i + 1, rng.randint(legs[i].lo, middle), rng.randint(middle, legs[i].hi))
    stop = rng.randint(1, len(legs) - 1)
    return (name, stop) if name == "lift" else make_window(rng, legs, total, stop, 2 * share)


def stray_window(rng, legs, total):
    """A window anywhere in the day, which often leaves no timing."""
    low = rng.randint(0, total)
    return ("window", rng.randint(1, len(legs) - 1), low, low + total // len(legs))


def scene(rng, legs, total, windows):
    """An open, and windows for these stops."""
    return [("open", total)] + [make_window(rng, legs, total, stop, total // len(legs)) for stop in windows]


def changes(rng, legs, calls, total, characters, refused):
    """As many changes as the characters hold. Unless some are to be refused, each leaves a timing."""
    room = characters - len(text_of(legs, calls))
    settings, drawn = None, []
    for call in calls:
        settings = after(legs, settings, call)
    while room > 13:
        call = stray_window(rng, legs, total) if refused and rng.randrange(4) == 0 else make_call(rng, legs, total)
        asked = after(legs, settings, call)
        if stuck(asked) is None:
            settings = asked
        elif not refused:
            continue
        drawn.append(call)
        room -= len(frame(call)) + 1
    return drawn


def make_text(name, count, ends, total, windows=(), characters=CHARACTERS, refused=False):
    """A text by its name, which seeds it; the number of legs and their ends; the total; and the stops that have windows."""
    rng = random.Random(name)
    legs = make_legs(rng, count, *ends, total // count)
    opening = scene(rng, legs, total, windows)
    return Text(name, legs, opening + changes(rng, legs, opening, total, characters, refused), len(opening))


def worst_text(characters):
    """Every leg could take the whole day, and a window of the last stop shuts a minute before its end: the most moves."""
    rng = random.Random(WORST)
    total = largest_total(64)
    legs = make_legs(rng, 64, 0, 4095, total // 64)
    calls = [("open", total), ("window", 63, 0, total - 1)]
    again = min(200, (characters - len(text_of(legs, calls))) // 7)
    return Text(WORST, legs, calls + [("total", total)] * again, len(calls))


def all_texts(characters=CHARACTERS):
    """The texts of the benchmark, each of at most so many characters."""
    return [
        make_text("3 legs", 3, (40, 180), 330, (), characters),
        make_text("12 legs, windows", 12, (30, 150), 960, range(1, 12), characters),
        make_text("64 legs, largest total", 64, (0, 40), largest_total(64), (), characters),
        make_text("16 legs of 0 to 4,095", 16, (0, 4095), largest_total(16), (), characters),
        make_text("8 legs, some refused", 8, (20, 120), 500, range(1, 8), characters, True),
        worst_text(characters),
    ]


def plain_text(name, count, ends, total, windows=()):
    """A book and its scene alone, to repeat one call on."""
    rng = random.Random(name)
    legs = make_legs(rng, count, *ends, total // count)
    opening = scene(rng, legs, total, windows)
    return Text(name, legs, opening, len(opening))

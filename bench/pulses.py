"""Frames of IRIG-B, written and read by docs/FORMATS.md alone. Nothing here knows the program."""
import re
from datetime import datetime, timedelta

ELEMENTS = 100
MARKERS = (0, 9, 19, 29, 39, 49, 59, 69, 79, 89, 99)
WIDTHS = {"0": 2, "1": 5, "M": 8}
SECOND = dict(zip((1, 2, 3, 4, 6, 7, 8), (1, 2, 4, 8, 10, 20, 40)))
MINUTE = dict(zip((10, 11, 12, 13, 15, 16, 17), (1, 2, 4, 8, 10, 20, 40)))
HOUR = dict(zip((20, 21, 22, 23, 25, 26), (1, 2, 4, 8, 10, 20)))
DAY = dict(zip((30, 31, 32, 33, 35, 36, 37, 38, 40, 41), (1, 2, 4, 8, 10, 20, 40, 80, 100, 200)))
YEAR = dict(zip((50, 51, 52, 53, 55, 56, 57, 58), (1, 2, 4, 8, 10, 20, 40, 80)))
BINARY = dict(zip((*range(80, 89), *range(90, 98)), (2 ** n for n in range(17))))

MOST_BYTES = 8_000_000
MOST_FRAMES = 1_200
FRAME_LIMIT = 2_000_000_000_000


def is_leap_end(minute):
    return (minute.month, minute.day, minute.hour, minute.minute) in ((6, 30, 23, 59), (12, 31, 23, 59))


def by_digits(value, weights):
    """The elements of a number that is written digit by digit."""
    found = {}
    for element, weight in weights.items():
        unit = 10 ** (len(str(weight)) - 1)
        found[element] = value // unit % 10 & weight // unit
    return found


def elements(minute, second):
    """The hundred elements of a second of a minute, as 0, 1 and M."""
    ones = {
        **by_digits(second, SECOND),
        **by_digits(minute.minute, MINUTE),
        **by_digits(minute.hour, HOUR),
        **by_digits(minute.timetuple().tm_yday, DAY),
        **by_digits(minute.year % 100, YEAR),
        **{element: 3600 * minute.hour + 60 * minute.minute + second & weight for element, weight in BINARY.items()},
    }
    return "".join("M" if n in MARKERS else "1" if ones.get(n) else "0" for n in range(ELEMENTS))


def frame(at, minute, second):
    """The text of a frame."""
    edges = ((at + 10 * n, at + 10 * n + WIDTHS[element]) for n, element in enumerate(elements(minute, second)))
    return "".join(f"{rise} H\n{fall} L\n" for rise, fall in edges)


def listed(at, minute, second):
    """The line that tells what a frame tells."""
    return f"at {at} {minute:%Y-%m-%dT%H:%MZ} {second}\n"


def summed(found, weights):
    return sum(weight for element, weight in weights.items() if found[element] == "1")


def told(found):
    """The minute and second that elements tell, or None."""
    year, day = 2000 + summed(found, YEAR), summed(found, DAY)
    try:
        minute = datetime(year, 1, 1) + timedelta(days=day - 1, hours=summed(found, HOUR), minutes=summed(found, MINUTE))
    except (OverflowError, ValueError):
        return None
    second = summed(found, SECOND)
    if not 2000 <= minute.year <= 2099 or second > 60 or second == 60 and not is_leap_end(minute):
        return None
    return (minute, second) if elements(minute, second) == found else None


def read(text):
    """What is told of a text of frames: the lines that list its frames, or the line of its refusal."""
    if len(text) > MOST_BYTES:
        return "frames: too large\n"
    lines = text.split("\n")
    frames, start, found, last = [], 0, "", None
    for number, line in enumerate(lines, 1):
        place = (number - 1) % (2 * ELEMENTS)
        ended = number < len(lines)
        if not ended and not line and place == 0:
            return "".join(listed(*one) for one in frames)
        form = re.fullmatch(r"(0|[1-9][0-9]{0,12}) " + "HL"[place % 2], line, re.ASCII) if ended else None
        if not form:
            return f"frames: line {number}: shape\n"
        at = int(form[1])
        if place == 0:
            if len(frames) == MOST_FRAMES:
                return f"frames: line {number}: too many frames\n"
            timely = at < FRAME_LIMIT and (last is None or at >= last + 1000)
            start, found, last = at, "", at
        elif place % 2 == 0:
            timely = at == start + 5 * place
        else:
            width = at - start - 5 * (place - 1)
            timely = width in WIDTHS.values()
            found += next((sign for sign, high in WIDTHS.items() if high == width), "")
        if not timely:
            return f"frames: line {number}: timing\n"
        if place == 2 * ELEMENTS - 1:
            second = told(found)
            if second is None:
                return f"frames: line {number}: meaning\n"
            frames.append((start, *second))
    raise AssertionError("the last line has no LF")

"""What the four stations send, and what receivers hear of it: logs for the sample and the measurements.

It shares nothing with the program that it serves to measure. The telegrams are written here once more from the
descriptions by PTB (DCF77), NPL (MSF), NIST (WWVB) and NICT (JJY), with this project's own choices where these leave
one, as docs/DEFINITIONS.md and docs/FORMATS.md have them. Logs are made without a leap second; `listing` knows them too.
"""
import calendar
import random
from datetime import datetime, timedelta
from functools import lru_cache

STATIONS = ("dcf77", "msf", "wwvb", "jjy")

# The tenths of a second in which the carrier is low, by symbol.
LOW = {
    "dcf77": {"0": (0,), "1": (0, 1), "-": ()},
    "msf": {"0": (0,), "1": (0, 2), "2": (0, 1), "3": (0, 1, 2), "M": (0, 1, 2, 3, 4)},
    "wwvb": {"0": (0, 1), "1": (0, 1, 2, 3, 4), "M": (0, 1, 2, 3, 4, 5, 6, 7)},
    "jjy": {"0": (8, 9), "1": (5, 6, 7, 8, 9), "M": (2, 3, 4, 5, 6, 7, 8, 9)},
}


@lru_cache(None)
def digits(value, weights):
    """The bits of a number that is written digit by digit, in the order of the weights."""
    units = [10 ** (len(str(weight)) - 1) for weight in weights]
    return tuple(value // unit % 10 // (weight // unit) % 2 for weight, unit in zip(weights, units))


@lru_cache(None)
def sunday(year, month, which):
    """A Sunday of a month: the first, the second, or with -1 the last."""
    days = [week[6] for week in calendar.monthcalendar(year, month) if week[6]]
    return datetime(year, month, days[which if which < 0 else which - 1])


def european_changes(year):
    hour = timedelta(hours=1)
    return sunday(year, 3, -1) + hour, sunday(year, 10, -1) + hour


def is_european_summer(utc):
    begins, ends = european_changes(utc.year)
    return begins <= utc < ends


def changes_within(utc, minutes):
    return any(utc < change <= utc + timedelta(minutes=minutes) for change in european_changes(utc.year))


def american_bits(utc):
    """WWVB's two bits of summer time."""
    first, last = (sunday(utc.year, 4, 1), sunday(utc.year, 10, -1)) if utc.year < 2007 else (
        sunday(utc.year, 3, 2), sunday(utc.year, 11, 1))
    day = datetime(utc.year, utc.month, utc.day)
    return int(first <= day < last), int(first < day <= last)


def written(second, places, value, weights):
    """Writes a number and tells how many ones it has."""
    bits = digits(value, weights)
    for place, bit in zip(places, bits):
        second[place] = str(bit)
    return sum(bits)


def dcf77(utc):
    sent = utc + timedelta(minutes=1)
    summer = is_european_summer(sent)
    local = sent + timedelta(hours=2 if summer else 1)
    second = ["0"] * 60
    second[16] = str(int(changes_within(utc, 60)))
    second[17], second[18] = ("1", "0") if summer else ("0", "1")
    second[20] = "1"
    second[28] = str(written(second, range(21, 28), local.minute, (1, 2, 4, 8, 10, 20, 40)) % 2)
    second[35] = str(written(second, range(29, 35), local.hour, (1, 2, 4, 8, 10, 20)) % 2)
    ones = written(second, range(36, 42), local.day, (1, 2, 4, 8, 10, 20))
    ones += written(second, range(42, 45), local.isoweekday(), (1, 2, 4))
    ones += written(second, range(45, 50), local.month, (1, 2, 4, 8, 10))
    ones += written(second, range(50, 58), local.year % 100, (1, 2, 4, 8, 10, 20, 40, 80))
    second[58] = str(ones % 2)
    second[59] = "-"
    return second


def msf(utc):
    sent = utc + timedelta(minutes=1)
    summer = is_european_summer(sent)
    local = sent + timedelta(hours=1 if summer else 0)
    bits = ["0"] * 60
    groups = [written(bits, range(17, 25), local.year % 100, (80, 40, 20, 10, 8, 4, 2, 1))]
    groups.append(written(bits, range(25, 30), local.month, (10, 8, 4, 2, 1))
                  + written(bits, range(30, 36), local.day, (20, 10, 8, 4, 2, 1)))
    groups.append(written(bits, range(36, 39), local.isoweekday() % 7, (4, 2, 1)))
    groups.append(written(bits, range(39, 45), local.hour, (20, 10, 8, 4, 2, 1))
                  + written(bits, range(45, 52), local.minute, (40, 20, 10, 8, 4, 2, 1)))
    second = ["2" if bit == "1" else "0" for bit in bits]
    second[53] = "3" if changes_within(utc, 61) else "2"
    for place, ones in zip(range(54, 58), groups):
        second[place] = "2" if ones % 2 else "3"
    second[58] = "3" if summer else "2"
    second[0] = "M"
    return second


def clock(second, hour, minute):
    """The time of day as WWVB and JJY write it; tells the ones of the hour and of the minute."""
    minutes = written(second, (1, 2, 3, 5, 6, 7, 8), minute, (40, 20, 10, 8, 4, 2, 1))
    hours = written(second, (12, 13, 15, 16, 17, 18), hour, (20, 10, 8, 4, 2, 1))
    return hours, minutes


def day_of_year(second, day):
    written(second, (22, 23, 25, 26, 27, 28, 30, 31, 32, 33), day, (200, 100, 80, 40, 20, 10, 8, 4, 2, 1))


def marked(second):
    for place in (0, 9, 19, 29, 39, 49, 59):
        second[place] = "M"
    return second


def wwvb(utc):
    second = ["0"] * 60
    clock(second, utc.hour, utc.minute)
    day_of_year(second, utc.timetuple().tm_yday)
    # DUT1 is 0: its sign is 1 0 1.
    second[36] = second[38] = "1"
    written(second, (45, 46, 47, 48, 50, 51, 52, 53), utc.year % 100, (80, 40, 20, 10, 8, 4, 2, 1))
    second[55] = str(int(utc.year % 4 == 0))
    second[57], second[58] = map(str, american_bits(utc))
    return marked(second)


def jjy(utc):
    japan = utc + timedelta(hours=9)
    second = ["0"] * 60
    hours, minutes = clock(second, japan.hour, japan.minute)
    second[36], second[37] = str(hours % 2), str(minutes % 2)
    day_of_year(second, japan.timetuple().tm_yday)
    # In the minutes 15 and 45 the call sign and what follows it: here are zeros.
    if japan.minute not in (15, 45):
        written(second, range(41, 49), japan.year % 100, (80, 40, 20, 10, 8, 4, 2, 1))
        written(second, range(50, 53), japan.isoweekday() % 7, (4, 2, 1))
    return marked(second)


TELEGRAMS = {"dcf77": dcf77, "msf": msf, "wwvb": wwvb, "jjy": jjy}

# The seconds of which the minute doesn't tell what they carry: what others send at DCF77, DUT1 at MSF and WWVB.
FREE = {"dcf77": range(1, 16), "msf": range(1, 17), "wwvb": (36, 37, 38, 40, 41, 42, 43), "jjy": ()}


def is_leap_end(utc):
    return (utc.month, utc.day, utc.hour, utc.minute) in ((6, 30, 23, 59), (12, 31, 23, 59))


def warn(station, utc, second):
    """Writes that a leap second comes at the end of this June or December."""
    if station == "dcf77" and (utc.month, utc.day, utc.hour) in ((6, 30, 23), (12, 31, 23)):
        second[19] = "1"
    if station == "wwvb" and utc.month in (6, 12):
        second[56] = "1"
    if station == "jjy" and utc.month in (6, 12) and utc.day > 1:
        second[53] = second[54] = "1"


def lengthen(station, second):
    """Makes a minute one of 61 seconds."""
    if station == "msf":
        second.insert(17, "0")
        return
    if station != "wwvb":
        second[59] = "0"
    second.append("-" if station == "dcf77" else "M")


def listing(station, utc, announced=False):
    """What the station may send in a minute, second by second: ? is 0 or 1, and * a second that isn't scored."""
    second = TELEGRAMS[station](utc)
    for place in FREE[station]:
        second[place] = "?"
    if announced:
        warn(station, utc, second)
    if station == "jjy" and utc.minute in (15, 45):
        second[40:49], second[50:56] = "*" * 9, "?" * 6
    if announced and is_leap_end(utc):
        lengthen(station, second)
    return "".join(second)


def symbols(station, begin, seconds):
    """The symbols of so many seconds, from this UTC second on."""
    made = {}
    found = []
    for slot in range(seconds):
        now = begin + timedelta(seconds=slot)
        minute = now.replace(second=0)
        if minute not in made:
            made[minute] = TELEGRAMS[station](minute)
        found.append(made[minute][now.second])
    return found


class Chance:
    """A stream of chances that is the same under every version of Python."""

    def __init__(self, *words):
        self.random = random.Random(" ".join(map(str, words))).random

    def below(self, count):
        return int(self.random() * count)

    def some(self, total, count):
        """So many different numbers below the total, each as likely as any other."""
        return set(sorted(range(total), key=lambda _: self.random())[:count])


# A second is ten levels, one for each tenth: H, L or X.


def wave(low):
    return "".join("L" if tenth in low else "H" for tenth in range(10))


def waves(station, sent):
    """The seconds of these symbols."""
    return [wave(LOW[station][symbol]) for symbol in sent]


def disturbed(station, heard, chance, percent):
    """So many percent of the seconds carry another symbol, no pulse, or a glitch of one or two tenths."""
    kinds = [wave(low) for low in LOW[station].values()]
    return [other(second, kinds, chance) if chance.below(100) < percent else second for second in heard]


def other(second, kinds, chance):
    kind = chance.below(3)
    if kind == 0:
        return kinds[chance.below(len(kinds))]
    if kind == 1:
        return "H" * 10
    at, length = chance.below(9), 1 + chance.below(2)
    glitch = "".join("H" if level == "L" else "L" for level in second[at:at + length])
    return second[:at] + glitch + second[at + length:]


def destroyed(heard, chance, percent):
    """Of so many percent of the seconds each tenth is high or low by chance."""
    spoiled = chance.some(len(heard), len(heard) * percent // 100)
    return [
        "".join("HL"[chance.below(2)] for _ in range(10)) if number in spoiled else second
        for number, second in enumerate(heard)
    ]


def unknown(heard, chance, percent):
    """Of so many percent of the seconds nothing is known."""
    spoiled = chance.some(len(heard), len(heard) * percent // 100)
    return ["X" * 10 if number in spoiled else second for number, second in enumerate(heard)]


def inverted(heard):
    return [second.translate(str.maketrans("HL", "LH")) for second in heard]


def changes(heard):
    """The records of these seconds, as pairs of a millisecond and a level: where the level changes."""
    records, before = [], None
    for tenth, level in enumerate("".join(heard)):
        if level != before:
            records.append((100 * tenth, level))
            before = level
    return records


def moved(records, chance, most):
    """Each record but the first is moved by at most so many milliseconds."""
    if most == 0:
        return records
    return records[:1] + [(at + chance.below(2 * most + 1) - most, level) for at, level in records[1:]]


def stretched(records, by):
    """Every pulse of low carrier ends so many milliseconds later: all that follows a low is moved by them."""
    levels = [None] + [level for _, level in records]
    return [(at + by if before == "L" else at, level) for before, (at, level) in zip(levels, records)]


def log_of(records, seconds, delay=0, head=None):
    """The text of a log, every time of it later by the delay, closed a second after its end."""
    lines = [f"# {head}"] if head else []
    lines += [f"{at + delay} {level}" for at, level in records]
    lines.append(f"{1000 * seconds + delay + 1000} H")
    return "".join(line + "\n" for line in lines)


def heard(station, begin, seconds, chance, percent=0, jitter=0, delay=0, head=None):
    """The log of a receiver over so many seconds, with noise."""
    seconds_heard = disturbed(station, waves(station, symbols(station, begin, seconds)), chance, percent)
    return log_of(moved(changes(seconds_heard), chance, jitter), seconds, delay, head)


def pulses(seconds, chance):
    """A log that tells nothing: the level changes after 20 to 600 ms, by chance."""
    records, at, level = [], 0, "H"
    while at < 1000 * seconds:
        records.append((at, level))
        at += 20 + chance.below(581)
        level = "L" if level == "H" else "H"
    return log_of(records, seconds)

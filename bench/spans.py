"""What a station may carry in each second of a minute, of one minute or of all minutes of a span at once.

A minute's seconds go by the station's time of day or by its date. So the minutes of a day are made of one row for each time of
day, which serve every day, and of one row for the date; the union of a year's minutes is that of its days. Each row is one of
radio.py's listings. A row is a whole number with a byte a second, and in that a bit for each symbol, in radio.py's order, and
one for a second that isn't scored.
"""
from datetime import timedelta

import radio
from banks import BEGIN

DAY = 1440
UNSCORED = 1 << max(map(len, radio.LOW.values()))
# The seconds that go by the date: flags of summer time and of leap seconds, day, weekday, month, year and their parities.
OF_DATE = {
    "dcf77": (*range(16, 20), *range(36, 59)),
    "msf": (*range(17, 39), *range(53, 57), 58),
    "wwvb": (*range(22, 34), *range(45, 54), *range(55, 59)),
    "jjy": (*range(22, 34), *range(41, 49), *range(50, 55)),
}
# By how many minutes what a station tells is ahead of UTC, and by how many more in summer.
AHEAD = {"dcf77": 61, "msf": 1, "wwvb": 0, "jjy": 540}
SUMMER = {"dcf77": 60, "msf": 60, "wwvb": 0, "jjy": 0}
# Where in a UTC day near a change of summer time, or in one that may end with a leap second, these seconds change besides:
# where summer time comes or goes, where that is no longer announced, and where a leap second begins to be.
CHANGES = {"dcf77": (59, 60, 1380), "msf": (59, 60), "wwvb": (), "jjy": ()}


def masks_of(station):
    """For each byte of a listing its symbols as bits, as bytes.translate takes them."""
    table, symbols = bytearray(256), list(radio.LOW[station])
    for bit, symbol in enumerate(symbols):
        table[ord(symbol)] = 1 << bit
    table[ord("?")], table[ord("*")] = table[ord("0")] | table[ord("1")], UNSCORED
    return bytes(table)


MASKS = {station: masks_of(station) for station in radio.STATIONS}


def row_of(station, text):
    """A listing as a row."""
    return int.from_bytes(text.encode().translate(MASKS[station]), "little")


def seams(station, day):
    """The minutes of the century at which the parts of a day begin in each of which the seconds of the date stay as they are."""
    utc, begin = BEGIN + timedelta(days=day), DAY * day
    midnights = {0, DAY - AHEAD[station] - (SUMMER[station] if is_summer(begin) else 0)}
    if utc.month in (3, 10) and utc.day >= 24 or (utc.month, utc.day) in ((6, 30), (12, 31)):
        midnights |= {DAY - AHEAD[station], DAY - AHEAD[station] - SUMMER[station], *CHANGES[station]}
    return sorted(begin + minute for minute in midnights if minute < DAY)


def is_summer(minute):
    """Whether the minute that is told in this one lies in European summer time."""
    return radio.is_european_summer(BEGIN + timedelta(minutes=minute + 1))


def runs(rows):
    """The unions of 1, 2, 4 and so on rows one behind the other: those of n from place i on stand in list log2 n at i."""
    found, reach = [list(rows)], 1
    while 2 * reach <= len(rows):
        found.append([one | other for one, other in zip(found[-1], found[-1][reach:])])
        reach *= 2
    return found


def over(unions, begin, end):
    """The union of the rows from one place up to another."""
    which = (end - begin).bit_length() - 1
    return unions[which][begin] | unions[which][end - (1 << which)]


class Spans:
    """The rows of a station with a leap second announced or without, and their unions. No row has a second 60."""

    def __init__(self, station, announced):
        self.station, self.announced = station, bool(announced)
        # For each minute of a day in winter what goes by the time of day, and which of the other seconds go by the date: at
        # JJY not those of the call sign. A day in summer begins an hour later in it.
        times, kept = zip(*map(self.time_of_day, range(DAY + SUMMER[station])))
        self.times, self.kept, self.tells = runs(times), runs(kept), [one == max(kept) for one in kept]
        self.days, self.unions = {}, {}

    def listed(self, minute):
        """What the station may send in a minute, without a second 60."""
        utc = BEGIN + timedelta(minutes=minute)
        return radio.listing(self.station, utc, self.announced and not radio.is_leap_end(utc))

    def time_of_day(self, minute):
        """What goes by the time of day, and the seconds in which the date's row counts."""
        text = self.listed(minute)
        kept = bytes(255 * (second in OF_DATE[self.station] and text[second] not in "?*") for second in range(60))
        kept = int.from_bytes(kept, "little")
        return row_of(self.station, text) & ~kept, kept

    def parts(self, day):
        """The parts of a day in which the date's seconds stay as they are: where each begins, and the date's row."""
        if day not in self.days:
            # A minute of the call sign doesn't tell the date, but the one behind it does.
            minutes = [(minute, minute + (not self.tells[minute % DAY])) for minute in seams(self.station, day)]
            rows = [(minute, row_of(self.station, self.listed(asked))) for minute, asked in minutes]
            self.days[day] = list(zip(rows, [minute for minute, _ in rows[1:]] + [DAY * (day + 1)]))
        return self.days[day]

    def in_day(self, lo, hi):
        """The union of the minutes from one up to another of the same UTC day."""
        union = 0
        for (begin, date), end in self.parts(lo // DAY):
            begin, end = max(begin, lo), min(end, hi)
            if begin < end:
                first = begin % DAY + (SUMMER[self.station] and SUMMER[self.station] * is_summer(begin))
                last = first + end - begin
                union |= over(self.times, first, last) | date & over(self.kept, first, last)
        return union

    def union(self, lo, hi):
        """The union of the minutes from one up to another. That of a day or more is kept."""
        if (lo, hi) in self.unions:
            return self.unions[lo, hi]
        union, at = 0, lo
        while at < hi:
            end = min(at - at % DAY + DAY, hi)
            union |= self.union(at, end) if DAY == end - at < hi - lo else self.in_day(at, end)
            at = end
        if hi - lo >= DAY:
            self.unions[lo, hi] = union
        return union

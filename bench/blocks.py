"""Sequences, blocks, bounds, keys and answers, by docs/FORMATS.md alone. Nothing here knows the program.

A set of symbols is a byte, as spans.py has it. What a station may carry over a window is one whole number with a byte a slot,
so that the union of two such is one operation.
"""
from bisect import bisect_left
from datetime import timedelta
from functools import lru_cache, reduce
from operator import getitem, or_

import radio
from banks import BEGIN, END, written
from spans import AHEAD, UNSCORED, Spans, row_of

KEY_COSTS = 2 ** 33
SHORTER = {"Y": "D", "D": "H", "H": "M"}
LENGTHS = {"D": 1440, "H": 60, "M": 1}
YEARS = [(BEGIN.replace(year=year) - BEGIN) // timedelta(minutes=1) for year in range(2000, 2101)]
LEAP_ENDS = {
    (BEGIN.replace(year=year, month=month, day=day, hour=23, minute=59) - BEGIN) // timedelta(minutes=1)
    for year in range(2000, 2100) for month, day in ((6, 30), (12, 31))
}
LEAP_ORDER = sorted(LEAP_ENDS)


def length(announced, minute):
    return 61 if announced and minute in LEAP_ENDS else 60


def span_end(span, minute):
    """The first minute behind the year, day, hour or minute in which this one lies."""
    if span == "Y":
        return next(end for end in YEARS if end > minute)
    return minute - minute % LENGTHS[span] + LENGTHS[span]


def parts(span, announced, second, lo, hi):
    """The blocks of a span from one minute up to another."""
    found = []
    while lo < hi:
        end = min(span_end(span, lo), hi)
        found.append((span, announced, second, lo, end))
        lo = end
    return found


def children(block):
    span, *rest = block
    return parts(SHORTER[span], *rest) if span in SHORTER else []


def items(heard):
    return [
        block for announced in (0, 1) for second in range(60 + announced)
        for block in parts("Y", announced, second, heard.first, heard.end)
    ]


def key(cost, announced, second, minute):
    return cost * KEY_COSTS + (61 * announced + second) * END + minute


def block_key(bound, block):
    _, announced, second, lo, _ = block
    return key(bound, announced, second, lo)


def ceiling_key(ceiling):
    return ceiling * KEY_COSTS + KEY_COSTS - 1


def sequence_of(found):
    """The cost, the announcement, the second and the minute of a key."""
    cost, rest = divmod(found, KEY_COSTS)
    place, minute = divmod(rest, END)
    return cost, place // 61, place % 61, minute


@lru_cache(None)
def spans_of(station, announced):
    return Spans(station, announced)


@lru_cache(1_000_000)
def row(station, announced, minute):
    """What a station may carry in a minute, a byte a second."""
    if length(announced, minute) == 60:
        return spans_of(station, announced).union(minute, minute + 1)
    return row_of(station, radio.listing(station, BEGIN + timedelta(minutes=minute), True))


def costs_of_sets(costs):
    """What each set of symbols costs in a slot."""
    by_mask = []
    for mask in range(2 * UNSCORED):
        known = [cost for n, cost in enumerate(costs.values()) if mask >> n & 1]
        by_mask.append(0 if mask >= UNSCORED or not known else min(known))
    return by_mask


def msf_dut(value):
    """The ones by which MSF tells so many tenths."""
    ones = range(1, 1 + value) if value > 0 else range(9, 9 - value)
    return {second: str(int(second in ones)) for second in radio.FREE["msf"]}


def wwvb_dut(value):
    bits = "101" if value >= 0 else "010"
    return dict(zip(radio.FREE["wwvb"], bits + f"{abs(value):04b}"))


DUTS = {
    "msf": {value: msf_dut(value) for value in range(-8, 9)},
    "wwvb": {value: wwvb_dut(value) for value in range(-9, 10)},
}


class Judge:
    """Which sequences a window admits, what they cost, and the bounds of blocks."""

    def __init__(self, heard):
        self.heard, self.seconds = heard, heard.seconds
        self.sets = {station: list(map(costs_of_sets, heard.costs[station])) for station in heard.stations}
        self.silent = not any(any(costs) for sets in self.sets.values() for costs in sets)
        # The century ends in winter.
        self.encodable = END - max(AHEAD[station] for station in heard.stations)
        self.all_slots = (1 << 8 * self.seconds) - 1
        self.unions, self.duts, self.bounds = {}, {}, {}

    def last_minute(self, announced, second, minute):
        """The minute that holds the last slot."""
        left = self.seconds - (length(announced, minute) - second)
        while left > 0:
            minute += 1
            left -= length(announced, minute)
        return minute

    def is_walkable(self, announced, second, minute):
        return second < length(announced, minute) and self.last_minute(announced, second, minute) < self.encodable

    def walk(self, station, announced, second, minute):
        """What the station may carry in the slots."""
        got = row(station, announced, minute) >> 8 * second
        slots = length(announced, minute) - second
        while slots < self.seconds:
            minute += 1
            got |= row(station, announced, minute) << 8 * slots
            slots += length(announced, minute)
        return got & self.all_slots

    def is_legal(self, announced, second, minute):
        if not self.is_walkable(announced, second, minute):
            return False
        if not announced or second == 60 or not self.is_walkable(0, second, minute):
            return True
        return any(
            self.walk(station, 1, second, minute) != self.walk(station, 0, second, minute) for station in self.heard.stations
        )

    def cost_of_walk(self, station, walk):
        return sum(map(getitem, self.sets[station], walk.to_bytes(self.seconds, "little")))

    def tied(self, station, announced, second, minute):
        """What the seconds of DUT1 cost by each value of it, and what they cost free."""
        long = next((n for n in range(22) if length(announced, minute + n) == 61), None)
        place = station, second, long
        if place not in self.duts:
            seconds, costs = [], self.heard.costs[station]
            while len(seconds) < self.seconds:
                seconds += range(second, length(announced, minute))
                second, minute = 0, minute + 1
            slots = [(costs[slot], now) for slot, now in enumerate(seconds[:self.seconds]) if now in radio.FREE[station]]
            free = sum(min(cost["0"], cost["1"]) for cost, _ in slots)
            by_value = {value: sum(cost[told[now]] for cost, now in slots) for value, told in DUTS[station].items()}
            self.duts[place] = by_value, free
        return self.duts[place]

    def is_in_one_day(self, announced, second, minute):
        return minute // 1440 == self.last_minute(announced, second, minute) // 1440

    def cost(self, *sequence):
        """What a legal sequence costs."""
        total, one_day = 0, self.is_in_one_day(*sequence)
        for station in self.heard.stations:
            total += self.cost_of_walk(station, self.walk(station, *sequence))
            if one_day and station in DUTS:
                by_value, free = self.tied(station, *sequence)
                total += min(by_value.values()) - free
        return total

    def walkable_in(self, block):
        """The minutes of the block in which a walkable sequence begins."""
        _, announced, second, lo, hi = block
        minutes = range(lo, hi) if second < 60 else sorted(end for end in LEAP_ENDS if lo <= end < hi)
        return (minute for minute in minutes if self.is_walkable(announced, second, minute))

    def even_union(self, station, announced, second, lo, hi):
        """The union of the walks that begin in these minutes, none of which meets a minute of 61 seconds."""
        spans = spans_of(station, announced)
        union, slots = spans.union(lo, hi) >> 8 * second, 60 - second
        while slots < self.seconds:
            lo, hi = lo + 1, hi + 1
            union |= spans.union(lo, hi) << 8 * slots
            slots += 60
        return union & self.all_slots

    def union_of_walks(self, announced, second, minutes):
        """The union of these walks, station by station, or None where there are none."""
        place = announced, second, minutes
        if place not in self.unions:
            walked = [minute for minute in minutes if self.is_walkable(announced, second, minute)]
            self.unions[place] = [
                reduce(or_, (self.walk(station, announced, second, minute) for minute in walked)) for station in self.heard.stations
            ] if walked else None
        return self.unions[place]

    def union(self, block):
        """What each station may carry in some walkable sequence of the block, or None where there is none.

        Near a minute of 61 seconds each walk is gone through by itself. All others tell 60 seconds of each minute.
        """
        _, announced, second, lo, hi = block
        reach = (second + self.seconds - 1) // 60
        found, even_end = [], min(hi, self.encodable - reach)
        for end in LEAP_ORDER[bisect_left(LEAP_ORDER, lo):bisect_left(LEAP_ORDER, hi + reach)] if announced else ():
            first, last = max(lo, end if second == 60 else end - reach), min(hi, end + 1)
            found.append(self.union_of_walks(announced, second, range(first, last)))
            found.append(self.even_walks(announced, second, lo, min(first, even_end)))
            lo = last
        found.append(self.even_walks(announced, second, lo, even_end))
        found = [one for one in found if one]
        return [reduce(or_, column) for column in zip(*found)] if found else None

    def even_walks(self, announced, second, lo, hi):
        """The union of such walks, station by station, or None where there are none."""
        if lo >= hi or second == 60:
            return None
        return [self.even_union(station, announced, second, lo, hi) for station in self.heard.stations]

    def bound(self, block):
        """The bound of a block, or None."""
        if block not in self.bounds:
            self.bounds[block] = self.find_bound(block)
        return self.bounds[block]

    def find_bound(self, block):
        span, announced, second, lo, _ = block
        if span == "M":
            return self.cost(announced, second, lo) if self.is_legal(announced, second, lo) else None
        if self.silent:
            return 0 if any(True for _ in self.walkable_in(block)) else None
        union = self.union(block)
        return union and sum(map(self.cost_of_walk, self.heard.stations, union))

    def report(self, first, second):
        """The lines that tell the answer, where the first two admitted sequences have these keys."""
        if first is None:
            return f"none\nphase {self.heard.phase}\n"
        cost, *sequence = sequence_of(first)
        other = None if second is None else sequence_of(second)
        if other and other[0] == cost:
            lines = [f"undecided {cost}", f"phase {self.heard.phase}", sequence_line(*sequence), sequence_line(*other[1:])]
        else:
            lines = [f"decided {cost}", f"phase {self.heard.phase}", sequence_line(*sequence)]
            lines += [f"next {other[0]}" if other else "next none"]
            lines += self.dut_lines(*sequence) + self.minute_lines(*sequence)
        return "".join(line + "\n" for line in lines)

    def dut_lines(self, *sequence):
        lines = []
        for station in self.heard.stations:
            if station in DUTS:
                by_value, _ = self.tied(station, *sequence)
                best = [value for value, cost in by_value.items() if cost == min(by_value.values())]
                told = best[0] if len(best) == 1 else "undecided"
                named = f"{station} " if len(self.heard.stations) > 1 else ""
                lines.append(f"dut1 {named}{told if self.is_in_one_day(*sequence) else 'free'}")
        return lines

    def minute_lines(self, announced, second, minute):
        lines, slot = [], -second
        while slot < self.seconds:
            if slot >= 0:
                lines.append(f"minute {written(minute)} at {self.heard.start + self.heard.phase + 1000 * slot}")
            slot += length(announced, minute)
            minute += 1
        return lines


def sequence_line(announced, second, minute):
    return f"sequence {written(minute)} {second} {'yes' if announced else 'no'}"

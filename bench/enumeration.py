"""The sequences of a short range one by one, and when a certificate of it is valid: a second way beside blocks.py.

It shares with that only radio.py and how a configuration and logs are read. It asks each millisecond for its level, goes
through each sequence by itself, takes the union of a block from all walks in it, and judges a text as a whole.
"""
from bisect import bisect_right
from datetime import datetime, timedelta
from itertools import groupby

import radio

BEGIN = datetime(2000, 1, 1)
CENTURY = 52_596_000
GROUPED_BY = {
    "Y": lambda utc: utc.year, "D": lambda utc: utc.date(), "H": lambda utc: (utc.date(), utc.hour), "M": lambda utc: utc,
}
ORDER = "YDHM"
DUT_SECONDS = {"msf": range(1, 17), "wwvb": (36, 37, 38, 40, 41, 42, 43)}


def utc_of(minute):
    return BEGIN + timedelta(minutes=minute)


def encoded_year(station, utc):
    """The year that a station tells in a minute."""
    if station == "wwvb":
        return utc.year
    if station == "jjy":
        return (utc + timedelta(hours=9)).year
    sent = utc + timedelta(minutes=1)
    zone = 1 if station == "dcf77" else 0
    return (sent + timedelta(hours=zone + radio.is_european_summer(sent))).year


def dut_text(station, tenths):
    """The symbols by which a station tells so many tenths, in the order of its seconds."""
    if station == "msf":
        ones = "1" * abs(tenths) + "0" * (8 - abs(tenths))
        return ones + "0" * 8 if tenths > 0 else "0" * 8 + ones
    size, bits = abs(tenths), ""
    for weight in (8, 4, 2, 1):
        bits += "1" if size >= weight else "0"
        size -= weight if size >= weight else 0
    return ("010" if tenths < 0 else "101") + bits


def level_at(times, records, at):
    """The level at a millisecond."""
    n = bisect_right(times, at)
    return records[n - 1][1] if 0 < n < len(records) else "X"


class Enumeration:
    """All sequences of a range: where each may begin, what it costs, which are legal."""

    def __init__(self, configuration, logs, values):
        self.stations, self.seconds, self.ceiling = configuration.stations, values["--seconds"], configuration.ceiling
        self.range = range(values["--from"], values["--to"] + 1)
        starts = [records[0][0] for records in logs if records]
        self.start = (min(starts) if starts else 0) if values["--start"] is None else values["--start"]
        self.phase = self.find_phase(configuration.receivers, logs)
        self.prices = {station: [{} for _ in range(self.seconds)] for station in self.stations}
        for receiver, records in zip(configuration.receivers, logs):
            self.listen(receiver, records)
        for slots in self.prices.values():
            for price in slots:
                price["?"] = min(price["0"], price["1"])
                price["*"] = 0
        self.texts, self.told, self.bounds, self.costs, self.groups = {}, {}, {}, {}, {}

    def find_phase(self, receivers, logs):
        offsets = []
        for receiver, records in zip(receivers, logs):
            begin, falls = self.start + receiver.delay, receiver.station != "jjy"
            for n in range(1, len(records)):
                pair = records[n - 1][1] + records[n][1]
                if pair == ("HL" if falls else "LH") and 0 <= records[n][0] - begin < 1000 * self.seconds:
                    offsets.append((records[n][0] - begin) % 1000)
        def points(phase):
            apart = [abs(offset - phase) for offset in offsets]
            return sum(max(0, 50 - min(one, 1000 - one)) for one in apart)
        return max(range(1000), key=lambda phase: (points(phase), -phase))

    def listen(self, receiver, records):
        times = [at for at, _ in records]
        begin = self.start + self.phase + receiver.delay
        for slot, price in enumerate(self.prices[receiver.station]):
            first = begin + 1000 * slot
            heard = ["".join(level_at(times, records, first + 100 * n + at) for at in range(100)) for n in range(10)]
            plain = {symbol: self.plain_price(receiver.table, heard, lows) for symbol, lows in radio.LOW[receiver.station].items()}
            most = receiver.table.second
            bounded = min(most, min(plain.values()))
            for symbol, cost in plain.items():
                told = min(most, cost) - bounded if most else cost
                price[symbol] = price.get(symbol, 0) + receiver.weight * told

    @staticmethod
    def plain_price(table, heard, lows):
        """What ten tenths cost by a symbol that is low in these of them."""
        return sum(
            (table.low if n in lows else table.high)[part.count("L")] for n, part in enumerate(heard) if "X" not in part
        )

    def text(self, station, minute, announced):
        """What the station may send in a minute."""
        place = station, minute, announced
        if place not in self.texts:
            self.texts[place] = radio.listing(station, utc_of(minute), announced)
        return self.texts[place]

    def is_told(self, minute):
        """Whether a minute lies before the year 2100, in UTC and in what each station tells in it."""
        if minute not in self.told:
            self.told[minute] = minute < CENTURY and all(
                encoded_year(station, utc_of(minute)) < 2100 for station in self.stations)
        return self.told[minute]

    def minutes(self, announced, second, first):
        """The minutes of a walk with how many seconds each has, or none where it isn't walkable."""
        found, slots, minute = [], -second, first
        while slots < self.seconds:
            if not self.is_told(minute):
                return []
            found.append((minute, 61 if announced and radio.is_leap_end(utc_of(minute)) else 60))
            slots += found[-1][1]
            minute += 1
        return found if second < found[0][1] else []

    def seconds_of(self, minutes, second):
        """Which second of its minute each slot holds."""
        found = [now for _, long in minutes for now in range(long)]
        return found[second:second + self.seconds]

    def carried(self, announced, second, first):
        """What the stations may carry in the slots, or none where the sequence isn't walkable."""
        minutes = self.minutes(announced, second, first)
        texts = ["".join(self.text(station, minute, announced) for minute, _ in minutes) for station in self.stations]
        return [text[second:second + self.seconds] for text in texts] if minutes else []

    def cost(self, announced, second, first):
        """What a sequence costs, or None where it isn't legal."""
        sequence = announced, second, first
        if sequence not in self.costs:
            self.costs[sequence] = self.count(*sequence)
        return self.costs[sequence]

    def count(self, announced, second, first):
        carried = self.carried(announced, second, first)
        if not carried or announced and second < 60 and carried == self.carried(0, second, first):
            return None
        minutes = self.minutes(announced, second, first)
        one_day = utc_of(minutes[0][0]).date() == utc_of(minutes[-1][0]).date()
        return sum(
            self.station_cost(station, minutes, second, text, one_day) for station, text in zip(self.stations, carried)
        )

    def station_cost(self, station, minutes, second, text, one_day):
        prices, told = self.prices[station], DUT_SECONDS.get(station, ()) if one_day else ()
        if not told:
            return sum(price[symbol] for price, symbol in zip(prices, text))
        total, tied = 0, []
        for price, now, symbol in zip(prices, self.seconds_of(minutes, second), text):
            if now in told:
                tied.append((price, told.index(now)))
            else:
                total += price[symbol]
        most = 8 if station == "msf" else 9
        values = (dut_text(station, tenths) for tenths in range(-most, most + 1))
        return total + min(sum(price[value[n]] for price, n in tied) for value in values)

    def bound(self, block):
        """The bound of a block, or None."""
        span, announced, second, lo, hi = block
        if span == "M":
            return self.cost(announced, second, lo)
        if block not in self.bounds:
            walks = [walk for walk in (self.carried(announced, second, first) for first in range(lo, hi)) if walk]
            self.bounds[block] = sum(
                self.union_price(price, set(column))
                for n, station in enumerate(self.stations)
                for price, column in zip(self.prices[station], zip(*(walk[n] for walk in walks)))
            ) if walks else None
        return self.bounds[block]

    @staticmethod
    def union_price(price, symbols):
        return 0 if "*" in symbols else min(price[symbol] for symbol in symbols)

    def keys(self):
        """The keys of all admitted sequences, in order."""
        found = []
        for announced in (0, 1):
            for second in range(61):
                for first in self.range:
                    cost = self.cost(announced, second, first)
                    if cost is not None and cost <= self.ceiling:
                        found.append(self.key(cost, announced, second, first))
        return sorted(found)

    @staticmethod
    def key(cost, announced, second, first):
        return (cost << 33) + (61 * announced + second) * CENTURY + first

    def head(self):
        stations = " ".join((["stations"] if len(self.stations) > 1 else ["station"]) + self.stations)
        return [
            stations, f"start {self.start}", f"phase {self.phase}", f"seconds {self.seconds}",
            f"from {self.range.start}", f"to {self.range.stop}", f"ceiling {self.ceiling}",
        ]

    def is_valid(self, text):
        """Whether a text that is a certificate's is a valid one."""
        if text.split("\n")[1:8] != self.head():
            return False
        named, limit, steps = self.parts_of(text)
        if not all(self.is_so(step, limit) for step in steps) or not self.covers(steps):
            return False
        leaves = sorted(self.key(bound, *block[1:4]) for kind, block, bound in steps if kind == "L")
        admitted = [key for key in leaves if key <= (self.ceiling << 33) + 2 ** 33 - 1]
        return named == (admitted + [None, None])[:2]

    def parts_of(self, text):
        """The keys that a text names, the limit that they give, and its steps."""
        lines = text.split("\n")
        named = [None if line.endswith("-") else int(line.split()[1]) for line in lines[8:10]]
        limit = min([(self.ceiling << 33) + 2 ** 33 - 1] + [key for key in named[1:] if key is not None])
        steps = [line.split() for line in lines[10:-2] if not line.startswith("worker")]
        steps = [(kind, (span, *map(int, block)), None if bound == "-" else int(bound)) for kind, span, *block, bound in steps]
        return named, limit, steps

    def is_shortest(self, text):
        """Of a valid one: no block above the limit is opened or a leaf, and the items stand in their own order."""
        _, limit, steps = self.parts_of(text)
        items = [block for _, block, _ in steps if block[0] == "Y"]
        return items == sorted(items) and all(
            self.key(bound, *block[1:4]) <= limit for kind, block, bound in steps if kind in "OL"
        )

    def is_so(self, step, limit):
        """What a step claims is so, of a block that is one of the range."""
        kind, block, bound = step
        _, announced, second, lo, hi = block
        if lo not in self.range or hi - 1 not in self.range or bound != self.bound(block):
            return False
        return kind != "P" or self.key(bound, announced, second, lo) > limit

    def covers(self, steps):
        """The steps go through all items, and each opened block's children follow it."""
        begun, at = [], 0
        while at is not None and at < len(steps):
            begun.append(steps[at][1])
            at = self.behind(steps, at, begun[-1:])
        wanted = [
            block for announced in (0, 1) for second in range(61 if announced else 60)
            for block in self.blocks("Y", announced, second, self.range.start, self.range.stop)
        ]
        return at is not None and sorted(begun) == sorted(wanted)

    def behind(self, steps, at, wanted):
        """The place behind the walks of these blocks that begin at a place, or None where there are none such."""
        for block in wanted:
            if at is None or at == len(steps) or steps[at][1] != block:
                return None
            kind, (span, *rest), _ = steps[at]
            at += 1
            if kind == "O":
                at = self.behind(steps, at, self.blocks(ORDER[ORDER.index(span) + 1], *rest))
        return at

    def blocks(self, span, announced, second, lo, hi):
        """The blocks of a span that the minutes from one up to another fall into."""
        if (span, lo, hi) not in self.groups:
            groups = groupby(range(lo, hi), key=lambda minute: GROUPED_BY[span](utc_of(minute)))
            groups = [list(group) for _, group in groups]
            self.groups[span, lo, hi] = [(group[0], group[-1] + 1) for group in groups]
        return [(span, announced, second, *group) for group in self.groups[span, lo, hi]]

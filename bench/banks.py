"""What docs/FORMATS.md says of a bank, written by that page alone: words, configuration, logs, start and phase, costs.

Nothing here knows the program. It wants Python 3.11, for its reader of TOML. That reads TOML 1.0, and the limits of the
reader's memory (tables, parts of a key, depth) aren't asked.
"""
import re
import tomllib
from datetime import datetime, timedelta

import radio

BEGIN = datetime(2000, 1, 1)
END = 52_596_000
GREATEST_COST = 1_920_000_000
NUMBER = re.compile(r"0|[1-9][0-9]*", re.ASCII)
MINUTE = re.compile(r"[0-9]{4}-[0-9]{2}-[0-9]{2}T[0-9]{2}:[0-9]{2}Z", re.ASCII)
RECORD = re.compile(rb"(0|[1-9][0-9]{0,11}) ([HLX])")
MOST_CONFIGURATION = 1_000_000
MOST_LOG = 8_000_000
MOST_RECORDS = 200_000

# What the values of options may be, and what they are where they aren't given.
OPTIONS = {
    "--start": (0, 999_999_999_999, None),
    "--seconds": (60, 1_200, 180),
    "--from": (0, END - 1, 0),
    "--to": (0, END - 1, END - 1),
    "--workers": (1, 8, 4),
}


class Refused(Exception):
    """A run ends with this line and this status."""

    def __init__(self, line, status):
        super().__init__(line)
        self.line, self.status = line, status


def written(minute):
    """A minute of the century as text."""
    return (BEGIN + timedelta(minutes=minute)).strftime("%Y-%m-%dT%H:%MZ")


def minute_in(word):
    """The number of a minute of the century, or None."""
    if not MINUTE.fullmatch(word):
        return None
    try:
        minute = (datetime.strptime(word, "%Y-%m-%dT%H:%MZ") - BEGIN) // timedelta(minutes=1)
    except ValueError:
        return None
    return minute if 0 <= minute < END else None


def value_in(option, word):
    least, most, _ = OPTIONS[option]
    if option in ("--from", "--to"):
        return minute_in(word)
    return int(word) if NUMBER.fullmatch(word) and least <= int(word) <= most else None


def read_words(words, places, options):
    """The words at the places, and the values of the options."""
    usage = Refused("words: usage", 3)
    head, pairs = words[:places], words[places:]
    if len(head) < places or len(pairs) % 2 or any(not word or word[0] == "-" for word in head + pairs[1::2]):
        raise usage
    given = dict(zip(pairs[::2], pairs[1::2]))
    if len(given) < len(pairs) // 2 or any(option not in options for option in given):
        raise usage
    values = {}
    for option in options:
        values[option] = value_in(option, given[option]) if option in given else OPTIONS[option][2]
        if option in given and values[option] is None:
            raise Refused(f"words: bad {option}", 3)
    if values["--to"] < values["--from"]:
        raise Refused("words: --to is before --from", 3)
    return head, values


def contents(name, most):
    """The bytes of a file, one more than may be at the most."""
    try:
        with open(name, "rb") as file:
            return file.read(most + 1)
    except OSError as error:
        raise Refused(f"{name}: {error.strerror}", 6) from error


# Configuration


def is_number(value):
    return isinstance(value, int) and not isinstance(value, bool)


def key_of(table, told, key, default, kind, fits):
    """What stands at a key of a table, once it is found to be in order. A default of None says that it must stand."""
    if key not in table:
        if default is None:
            raise Refused(f"configuration: missing {told}{key}", 4)
        return default
    if not kind(table[key]):
        raise Refused(f"configuration: wrong kind {told}{key}", 4)
    if not fits(table[key]):
        raise Refused(f"configuration: out of range {told}{key}", 4)
    return table[key]


def within(least, most):
    return lambda value: least <= value <= most


def is_text(value):
    return isinstance(value, str)


def is_station(value):
    return value in radio.STATIONS


def is_name(value):
    return re.fullmatch(r"[a-z0-9_-]{1,32}", value, re.ASCII) is not None


def is_file_name(value):
    return 1 <= len(value.encode()) <= 200 and value[0] != "-"


def are_tables(value):
    return isinstance(value, list) and all(isinstance(one, dict) for one in value)


def are_costs(value):
    return isinstance(value, list) and len(value) == 101 and all(map(is_number, value))


def is_table(value):
    return isinstance(value, dict)


class Table:
    """A cost table: what a tenth costs by its low milliseconds, and what a second costs at the most (0: no bound)."""

    def __init__(self, told, table):
        fits = lambda costs: all(0 <= cost <= 200 for cost in costs)
        self.low = key_of(table, told, "low", list(range(100, -1, -1)), are_costs, fits)
        self.high = key_of(table, told, "high", list(range(101)), are_costs, fits)
        self.second = key_of(table, told, "second", 0, is_number, within(1, 2000))
        self.known = not set(table) - {"low", "high", "second"}

    def counted(self, costs):
        """What counts of what the ten tenths cost by each symbol of the station."""
        if not self.second:
            return costs
        bounded = {symbol: min(self.second, cost) for symbol, cost in costs.items()}
        least = min(bounded.values())
        return {symbol: cost - least for symbol, cost in bounded.items()}


def table_of(told, holder):
    """The cost table that stands here, or None."""
    table = key_of(holder, told, "table", {}, is_table, lambda value: True)
    return Table(told, table) if "table" in holder else None


class Receiver:
    """One receiver of a bank."""

    def __init__(self, number, table, station):
        told = f"receiver {number} "
        self.number = number
        self.name = key_of(table, told, "name", None, is_text, is_name)
        self.file = key_of(table, told, "log", None, is_text, is_file_name)
        self.delay = key_of(table, told, "delay_ms", 0, is_number, within(0, 500))
        self.weight = key_of(table, told, "weight", 1, is_number, within(1, 100))
        self.station = key_of(table, told, "station", station, is_text, is_station)
        self.table = table_of(told, table)
        self.known = not set(table) - {"name", "log", "delay_ms", "weight", "station", "table"}


class Configuration:
    """What a text says of a bank."""

    def __init__(self, data):
        top = parsed(data)
        station = key_of(top, "", "station", None, is_text, is_station)
        self.ceiling = key_of(top, "", "ceiling", GREATEST_COST, is_number, within(0, GREATEST_COST))
        tables = key_of(top, "", "receiver", None, are_tables, lambda value: 1 <= len(value) <= 8)
        self.receivers = [Receiver(number, table, station) for number, table in enumerate(tables, 1)]
        of_bank = table_of("", top) or Table("", {})
        for one in self.receivers:
            one.table = one.table or of_bank
        known = not set(top) - {"station", "ceiling", "receiver", "table"}
        if not known or not all(one.known and one.table.known for one in self.receivers) or not of_bank.known:
            raise Refused("configuration: unknown key", 4)
        self.stations = [one for one in radio.STATIONS if any(receiver.station == one for receiver in self.receivers)]


def fits_64_bits(value):
    """No whole number in it is beyond 64 bits."""
    if isinstance(value, dict):
        return all(map(fits_64_bits, value.values()))
    if isinstance(value, list):
        return all(map(fits_64_bits, value))
    return not is_number(value) or -2 ** 63 <= value < 2 ** 63


def parsed(data):
    if len(data) > MOST_CONFIGURATION:
        raise Refused("configuration: too large", 4)
    try:
        top = tomllib.loads(data.decode())
    except (ValueError, RecursionError) as error:
        raise Refused("configuration: not toml", 4) from error
    if not fits_64_bits(top):
        raise Refused("configuration: not toml", 4)
    return top


# Logs


def records_in(data, receiver):
    """The records of a log, as pairs of a millisecond and a level."""
    def refuse(what):
        return Refused(f"log {receiver.number} {receiver.name}: {what}", 5)
    if len(data) > MOST_LOG:
        raise refuse("too large")
    records, lines = [], data.split(b"\n")
    for number, line in enumerate(lines, 1):
        line = line[:-1] if line.endswith(b"\r") else line
        if not line or line.startswith(b"#"):
            continue
        form = RECORD.fullmatch(line)
        if not form:
            raise refuse(f"line {number}: shape")
        at = int(form[1])
        if records and at <= records[-1][0]:
            raise refuse(f"line {number}: not rising")
        if len(records) == MOST_RECORDS:
            raise refuse(f"line {number}: too many records")
        records.append((at, form[2].decode()))
    return records


def levels(records, begin, length):
    """The levels of so many milliseconds, one byte each."""
    found = bytearray(b"X" * length)
    for (at, level), (until, _) in zip(records, records[1:]):
        first, last = max(at - begin, 0), min(until - begin, length)
        if first < last:
            found[first:last] = level.encode() * (last - first)
    return bytes(found)


def phase_of(start_edges):
    """The phase at which most of the edges agree, of how many milliseconds they lie behind a whole second."""
    sums = [0] * 1000
    for offset in start_edges:
        for by in range(-49, 50):
            sums[(offset + by) % 1000] += 50 - abs(by)
    return sums.index(max(sums))


def tenths_cost(receiver, second):
    """What the ten tenths of a second cost by each symbol of the receiver's station."""
    costs = dict.fromkeys(radio.LOW[receiver.station], 0)
    for tenth in range(10):
        part = second[100 * tenth:100 * tenth + 100]
        if b"X" in part:
            continue
        n = part.count(b"L")
        for symbol, lows in radio.LOW[receiver.station].items():
            costs[symbol] += receiver.table.low[n] if tenth in lows else receiver.table.high[n]
    return costs


class Heard:
    """A bank over a window: its stations, start, phase and seconds, the range, and what each symbol costs in each slot."""

    def __init__(self, configuration, logs, values):
        self.stations, self.ceiling = configuration.stations, configuration.ceiling
        self.seconds, self.first, self.end = values["--seconds"], values["--from"], values["--to"] + 1
        begins = [records[0][0] for records in logs if records]
        self.start = values["--start"] if values["--start"] is not None else min(begins, default=0)
        self.phase = phase_of([
            offset for receiver, records in zip(configuration.receivers, logs) for offset in self.edges(receiver, records)
        ])
        self.costs = {station: [dict.fromkeys(radio.LOW[station], 0) for _ in range(self.seconds)] for station in self.stations}
        for receiver, records in zip(configuration.receivers, logs):
            self.add(receiver, records)

    def edges(self, receiver, records):
        """How far behind a whole second of the receiver's window its start edges lie."""
        begin = self.start + receiver.delay
        pair = ("L", "H") if receiver.station == "jjy" else ("H", "L")
        for (_, before), (at, level) in zip(records, records[1:]):
            if (before, level) == pair and begin <= at < begin + 1000 * self.seconds:
                yield (at - begin) % 1000

    def add(self, receiver, records):
        """Adds what the symbols cost at a receiver."""
        heard = levels(records, self.start + self.phase + receiver.delay, 1000 * self.seconds)
        for slot, costs in enumerate(self.costs[receiver.station]):
            told = receiver.table.counted(tenths_cost(receiver, heard[1000 * slot:1000 * slot + 1000]))
            for symbol, cost in told.items():
                costs[symbol] += receiver.weight * cost


def read_bank(name, values):
    """Reads a configuration and its logs, each read and then judged."""
    configuration = Configuration(contents(name, MOST_CONFIGURATION))
    logs = [records_in(contents(receiver.file, MOST_LOG), receiver) for receiver in configuration.receivers]
    return Heard(configuration, logs, values)

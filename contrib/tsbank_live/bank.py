"""A bank in a window: its logs are cut, tsbank decodes them, and each receiver is heard alone too."""
import re
from collections import namedtuple
from itertools import combinations
from pathlib import Path

from . import Refused, guard, phase
from .machine import write_whole

Receiver = namedtuple("Receiver", "name log delay station alone")
# What a window says, or why it is kept back; the line through its edges; what each receiver says alone, by name, as such a
# pair of a reading and a reason; and the logs that tell nothing, with the reason. It begins at a nanosecond of the quartz.
Window = namedtuple("Window", "begin reading why line alone silent")

EVEN = 0.002               # seconds by which a part of a window may lie beside the line through all
DRIFT = 10e-6              # what the rates of two receivers may differ by
TABLE = re.compile(r"\s*\[\[?\s*([\w.-]+)\s*\]\]?")


def value(text, key, otherwise):
    found = re.search(rf"""^\s*{key}\s*=\s*(?:"([^"]*)"|'([^']*)'|(\d+))""", text, re.MULTILINE)
    return next(one for one in found.groups() if one is not None) if found else otherwise


def bound_of(alone):
    """What a second costs at the most the receiver of a configuration in which it stands alone, or None."""
    # A table of its own is in place of the bank's, and leaves nothing to it.
    table = alone.split("[receiver.table]", 1)[1].split("\n[", 1)[0] if "[receiver.table]" in alone else alone
    bound = value(table, "second", None)
    return int(value(alone, "weight", 1)) * int(bound) if bound else None


def receivers_of(config):
    """The receivers of a configuration, each with a configuration in which it stands alone."""
    shared, parts, at = [], [], None
    for line in config.splitlines():
        table = TABLE.match(line)
        if table and table[1] == "receiver":
            at = []
            parts.append(at)
        elif table and not table[1].startswith("receiver."):
            at = None
        (shared if at is None else at).append(line)
    # What stands in front of the first table belongs to no table, so the receiver comes behind it and before the others.
    first = next((number for number, line in enumerate(shared) if TABLE.match(line)), len(shared))
    top, tables = shared[:first], shared[first:]
    found = []
    for part in parts:
        text = "\n".join(part)
        name, log = value(text, "name", ""), value(text, "log", "")
        station = value(text, "station", value("\n".join(top), "station", ""))
        alone = "\n".join(top + part + tables) + "\n"
        found.append(Receiver(name, log, int(value(text, "delay_ms", 0)) / 1000, station, alone))
    return found


def cut(records, begin, seconds):
    """The text of a log from a nanosecond of the quartz on: its times count from there. It has the record that holds at its
    begin and one that closes it."""
    lines = []
    for at, level in records:
        if lines and lines[-1][0] > 1000 * seconds:
            break
        ms = max(0, round((at - begin) / 1_000_000))
        if lines and ms <= lines[-1][0]:
            lines.pop()
        lines.append((ms, level))
    return "".join(f"{ms} {level}\n" for ms, level in lines)


class Bank:
    """A configuration, and a folder in which the cuts of its logs are decoded."""

    def __init__(self, machine, asked, limits, folder, meanwhile):
        self.machine, self.asked, self.limits, self.meanwhile = machine, asked, limits, meanwhile
        self.cuts = Path(asked.folder or folder / "cuts")
        self.cuts.mkdir(parents=True, exist_ok=True)
        try:
            config = Path(asked.config).read_text()
        except (OSError, UnicodeDecodeError) as error:
            raise Refused(f"{asked.config}: {error}")
        self.receivers = receivers_of(config)
        if len(self.receivers) < len(asked.logs):
            raise Refused(f"{asked.config} has fewer tables [[receiver]] than there are LOGs")
        self.alone = {}
        for number, receiver in enumerate(self.receivers if len(self.receivers) > 1 else ()):
            path = folder / f"alone-{number + 1}.toml"
            path.write_text(receiver.alone)
            self.alone[receiver.name] = path

    def decode(self, config):
        words = [self.asked.tsbank, "decode", str(config), "--start", "0", "--seconds", str(self.asked.seconds), "--workers", "1"]
        try:
            return self.machine.run(words, self.cuts, self.meanwhile)
        except OSError as error:
            raise Refused(f"{self.asked.tsbank}: {error.strerror}")

    def read(self, config, begin, today):
        status, text, errors = self.decode(config)
        return guard.read(status, text, begin / 1e9, self.asked.seconds, self.limits, today, errors)

    def hear(self, begin, records, today, silent):
        """What the window says that begins at a nanosecond of the quartz, where `records` has those of each log by its name."""
        seconds = self.asked.seconds
        for name, found in records.items():
            write_whole(self.cuts / name, cut(found, begin, seconds + 2))
        reading, why = self.read(self.asked.config, begin, today)
        if why:
            return Window(begin, None, why, None, {}, silent)
        line, why = self.line(begin, records, reading)
        if why:
            return Window(begin, None, why, line, {}, silent)
        at = reading.heard - begin / 1e9
        heard = reading.heard + line.middle + line.rate * (at - seconds / 2)
        reading = reading._replace(heard=heard, offset=reading.minute - heard)
        heard_alone = {name: self.read(config, begin, today) for name, config in self.alone.items()}
        return Window(begin, reading, None, line, heard_alone, silent)

    def line(self, begin, records, reading):
        """The line through the edges of all receivers with which seconds begin, each less its delay; and why it won't do."""
        at = reading.heard - begin / 1e9
        found, lines = [], {}
        for receiver in self.receivers:
            seconds = [((moment - begin) / 1e9, level) for moment, level in records.get(receiver.log, ())]
            edges = [(moment - receiver.delay, level) for moment, level in phase.edges_of(seconds)]
            some = phase.starts(edges, at % 1)
            found += some
            lines[receiver.name] = phase.line(some, self.asked.seconds)
        whole = phase.line(found, self.asked.seconds)
        if whole is None:
            return None, "too few of its seconds begin with an edge to tell the rate of the clock"
        if whole.uneven > EVEN:
            return whole, f"the clock of the logs ran unevenly, by {1000 * whole.uneven:.0f} ms within it"
        return whole, self.apart([(name, line) for name, line in lines.items() if line])

    def apart(self, lines):
        """Which two receivers hear seconds begin at different times, or at different rates, or None."""
        for (one, first), (two, second) in combinations(lines, 2):
            apart, drifts = second.middle - first.middle, second.rate - first.rate
            doubt = (first.doubt + second.doubt) / 2
            if abs(apart) > self.asked.apart / 1000 + doubt * self.asked.seconds / 3.5:
                return f"{two} is {1000 * apart:+.0f} ms behind {one}: its delay_ms, or a time of its own"
            if abs(drifts) > DRIFT + doubt:
                return f"{two} drifts from {one}, by {1e6 * drifts:+.0f} parts in a million"
        return None

"""Decodes windows as `tsbank decode` does, but over the minutes near to some alone: for bench/clocks, in a few milliseconds.

The rules are those of docs/FORMATS.md, written once more (near.c) with the telegrams of radio.py. A report has the cost, the phase,
the sequence, the next cost and the minutes, of a bank of one station, by the default cost table.
"""
import ctypes
import subprocess
import tempfile
from array import array
from datetime import datetime, timezone
from pathlib import Path

import radio

from tsbank_live.bank import receivers_of

HERE = Path(__file__).resolve().parent
LENGTH = 62
NEVER = 0x3FFFFFFF
CHARACTERS = "0123-M?*"
END = bytes([len(CHARACTERS)])
# Minutes before and behind that are tried: near to the true time, and to those of receivers that lie.
AROUND, BESIDE = 30, 7
FIRST = 946_684_800        # 2000-01-01


class Receiver(ctypes.Structure):
    _fields_ = [("at", ctypes.POINTER(ctypes.c_long)), ("level", ctypes.c_char_p), ("count", ctypes.c_int), ("station", ctypes.c_int),
                ("delay", ctypes.c_int), ("weight", ctypes.c_int)]


class Near:
    """The decoder. It must be told which time it is, and whether a leap second comes in this June or December."""

    def __init__(self):
        self.folder = tempfile.TemporaryDirectory(prefix="tsbank-near-")
        library = Path(self.folder.name) / "near.so"
        subprocess.run(["cc", "-shared", "-fPIC", "-O3", "-o", library, HERE / "near.c"], check=True)
        self.library = ctypes.CDLL(str(library))
        self.telegrams = {}

    def telegram(self, station, minute, announced):
        key = station, minute, announced
        if key not in self.telegrams:
            date = datetime.fromtimestamp(60 * minute, timezone.utc).replace(tzinfo=None)
            text = radio.listing(station, date, announced)
            self.telegrams[key] = bytes(CHARACTERS.index(one) for one in text).ljust(LENGTH, END)
        return self.telegrams[key]

    def run(self, words, folder, world):
        """What `tsbank decode` would say: its status, and what it would write to standard output and standard error."""
        if len(self.telegrams) > 100_000:
            self.telegrams.clear()
        options = dict(zip(words[3::2], words[4::2]))
        start, seconds = int(options["--start"]), int(options["--seconds"])
        found = receivers_of(Path(folder, words[2]).read_text())
        receivers = (Receiver * len(found))(*(self.receiver(one, folder) for one in found))
        station = found[0].station
        phase = self.library.phase_of(receivers, len(found), ctypes.c_long(start), seconds)
        keys, limit = [], NEVER
        for announced in (False, True) if world.leap is not None else (False,):
            for first, count in self.groups(int(world.utc()) - seconds, seconds, world.lies):
                text = b"".join(self.telegram(station, minute, announced) for minute in range(first, first + count))
                two = (ctypes.c_int * 6)(NEVER, -1, 0, limit, -1, 0)
                self.library.search(receivers, len(found), ctypes.c_long(start), seconds, phase, text, count, two)
                keys += [(two[at], announced, two[at + 2], first + two[at + 1]) for at in (0, 3) if two[at + 1] >= 0]
                # Without an announcement a sequence may cost the same, so three are kept.
                limit = sorted(key[0] for key in keys)[2] + 1 if len(keys) > 2 else NEVER
        return self.report(sorted(set(keys)), phase, start, seconds, station)

    def groups(self, unix, seconds, lies):
        """The minutes that are tried, as first ones and counts: near to a time, and near to those of receivers that lie."""
        more = seconds // 60 + 2
        yield unix // 60 - AROUND, 2 * AROUND + more
        for lie in lies:
            if unix + lie > FIRST and abs(lie) > 60 * AROUND // 2:
                yield (unix + lie) // 60 - BESIDE, 2 * BESIDE + more

    def receiver(self, one, folder):
        # A cut has no comment.
        found = Path(folder, one.log).read_text().split()
        at = (ctypes.c_long * (len(found) // 2 + 1)).from_buffer(array("l", [*map(int, found[::2]), 0]))
        level = "".join(found[1::2]).encode()
        return Receiver(at, level, len(found) // 2, radio.STATIONS.index(one.station), round(1000 * one.delay), 1)

    def report(self, keys, phase, start, seconds, station):
        cost, announced, second, minute = keys[0]
        # With and without an announcement that the window doesn't show it is one sequence.
        others = [key for key in keys[1:] if key[2:] != (second, minute) or key[0] != cost]
        if others and others[0][0] == cost:
            return 1, f"undecided {cost}\nphase {phase}\n", ""
        lines = [f"decided {cost}", f"phase {phase}", f"sequence {self.written(minute)} {second} {'yes' if announced else 'no'}",
                 f"next {others[0][0] if others else 'none'}"]
        for slot in range(seconds):
            if second == 0:
                lines.append(f"minute {self.written(minute)} at {start + phase + 1000 * slot}")
            second += 1
            if self.telegram(station, minute, announced)[second] == END[0]:
                minute, second = minute + 1, 0
        return 0, "\n".join(lines) + "\n", ""

    def written(self, minute):
        return datetime.fromtimestamp(60 * minute, timezone.utc).strftime("%Y-%m-%dT%H:%MZ")

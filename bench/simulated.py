"""A simulated machine with its clocks, receivers that hear a station, loggers, and a chronyd that sets the clock.

It has the calls of contrib/tsbank_live/machine.py, so that live's own code runs on it. Time is what a true clock has
counted since the world began, in seconds. The machine's quartz is wrong by a few parts in a million; the monotonic clock is
slewed from it; the real time clock is ahead of that by what it was set to; a machine that sleeps stops the first two.
"""
import hashlib
import heapq
import itertools
import math
import os
import sqlite3
import struct
import subprocess
import sys
import threading
from collections import namedtuple
from datetime import datetime, timezone
from pathlib import Path

import radio

sys.path.insert(0, str(Path(__file__).resolve().parent.parent / "contrib"))
from tsbank_live.machine import Clocks  # noqa: E402
from tsbank_live.words import find_program  # noqa: E402

NANO = 1_000_000_000
ZERO = 1_000_000_000
SOCK_FORMAT = "@lldiiii"
Told = namedtuple("Told", "at how offset true")


class Ended(BaseException):
    """The time that was to be simulated is over."""


class Rebooted(BaseException):
    """The machine went down: what ran on it has ended."""


class Cache:
    """What tsbank said of the same words over the same files before: kept in a file, or nowhere."""

    def __init__(self, path=None):
        self.base = sqlite3.connect(path or ":memory:", isolation_level=None)
        self.base.execute("create table if not exists said (words text primary key, status int, text text, errors text)")

    def run(self, words, folder, world):
        config = Path(folder, words[2])
        parts = [" ".join(words[3:]).encode(), config.read_bytes()]
        for path in sorted(Path(folder).glob("*.log")):
            parts += [path.name.encode(), path.read_bytes()]
        key = hashlib.sha256(b"\0".join(parts)).hexdigest()
        found = self.base.execute("select status, text, errors from said where words = ?", (key,)).fetchone()
        if found is None:
            done = subprocess.run(words, cwd=folder, capture_output=True, text=True)
            found = done.returncode, done.stdout, done.stderr
            self.base.execute("insert or replace into said values (?, ?, ?, ?)", (key, *found))
        return found


class File:
    """A file of the machine: its bytes, and which one it is."""

    numbers = itertools.count(1)

    def __init__(self):
        self.identity, self.data = next(self.numbers), bytearray()


class World:
    """The true time, what happens when, and the machine's clocks."""

    def __init__(self, begin, ends, quartz=0.0, behind=0.0, decoder=None, leap=None):
        self.now, self.ends, self.begin, self.leap = 0.0, ends, begin, leap
        self.queue, self.order, self.until = [], itertools.count(), None
        self.quartz, self.freq, self.awake, self.on = quartz, 0.0, True, True
        self.raw = self.mono = self.up = 1000.0 * NANO       # since boot, in nanoseconds
        self.shift = round((begin - behind) * NANO - self.mono)
        self.boots = itertools.count(1)
        self.boot_name = self.new_boot()
        self.files, self.decoder = {}, decoder or Cache()
        self.told, self.lines = [], []
        self.sockets = {}
        self.decode_time = lambda: 0.2
        self.broken_program = None

    def new_boot(self):
        return f"00000000-0000-4000-8000-{next(self.boots):012d}"

    # Time

    def utc(self):
        """True UTC, in Unix time. A leap second is the last of its day once more."""
        return self.begin + self.now - (1 if self.leap is not None and self.now >= self.leap + 1 else 0)

    def at(self, when, action):
        heapq.heappush(self.queue, (when, next(self.order), action))

    def move(self, to):
        """Lets the clocks run up to a true time."""
        passed = max(0.0, to - self.now) * NANO
        if self.on and self.awake:
            ticks = passed * (1 + self.quartz)
            self.raw += ticks
            self.mono += ticks * (1 + self.freq)
            self.up += ticks * (1 + self.freq)
        elif self.on:
            self.up += passed
            self.shift += round(passed)
        self.now = max(self.now, to)

    def advance(self, to):
        """Lets everything happen up to a true time, and the machine sleep in between if it must."""
        self.until = to
        while self.queue and self.queue[0][0] <= min(self.until, self.ends):
            when, _, action = heapq.heappop(self.queue)
            self.move(when)
            action()
        if self.until >= self.ends:
            self.move(self.ends)
            raise Ended
        self.move(self.until)

    def true_seconds(self, seconds):
        """How long so many seconds of the monotonic clock last."""
        return seconds / ((1 + self.quartz) * (1 + self.freq))

    def real(self):
        return (self.mono + self.shift) / NANO

    def off(self):
        """What the real time clock is to be moved by, in truth."""
        return self.utc() - (self.shift + round(self.mono)) / NANO

    # What happens to clocks

    def step(self, seconds):
        self.shift += round(seconds * NANO)

    def slew(self, freq, seconds):
        self.freq = freq
        self.at(self.now + seconds, lambda: setattr(self, "freq", 0.0))

    def suspend(self, seconds):
        """The machine sleeps: whoever waits there waits so much longer."""
        self.awake = False
        wakes = self.now + seconds
        later = [entry for entry in self.queue if getattr(entry[2], "sleeper", False)]
        for entry in later:
            self.queue.remove(entry)
        heapq.heapify(self.queue)
        for when, order, action in later:
            heapq.heappush(self.queue, (when + seconds, order, action))
        self.until += seconds
        self.at(wakes, lambda: setattr(self, "awake", True))

    def reboot(self, seconds, behind):
        """The machine goes down, and comes up with a clock that is so much behind."""
        self.on = False
        for log in self.loggers:
            log.stop()

        def up():
            self.on, self.freq = True, 0.0
            self.raw = self.mono = self.up = 5.0 * NANO
            self.shift = round((self.utc() - behind) * NANO - self.mono)
            self.boot_name = self.new_boot()
        self.at(self.now + seconds, up)
        raise Rebooted

    loggers = receivers = lies = ()


class Waking:
    """What wakes a sleeper: it comes later where the machine sleeps."""

    sleeper = True

    def __init__(self, wake):
        self.wake = wake

    def __call__(self):
        self.wake()


class Sleeper:
    """A thread beside live, which runs while the world waits for it and no longer."""

    def __init__(self, world, work):
        self.world, self.turn, self.done = world, threading.Semaphore(0), threading.Semaphore(0)
        self.over = False
        self.thread = threading.Thread(target=self.run, args=(work,), daemon=True)
        self.thread.sleeper = self
        self.thread.start()
        self.hand_over()

    def run(self, work):
        self.turn.acquire()
        try:
            work()
        except SystemExit:
            pass
        self.over = True
        self.done.release()

    def hand_over(self):
        if not self.over:
            self.turn.release()
            self.done.acquire()

    def sleep(self, seconds):
        self.world.at(self.world.now + self.world.true_seconds(seconds), Waking(self.hand_over))
        self.done.release()
        self.turn.acquire()
        if self.over:
            raise SystemExit

    def end(self):
        if not self.over:
            self.over = True
            self.turn.release()


class Machine:
    """The calls of a machine, in a world."""

    def __init__(self, world, chronyd=None):
        self.world, self.chronyd, self.segment, self.sleepers = world, chronyd, None, []

    def clocks(self):
        world = self.world
        mono = round(world.mono)
        return Clocks(mono + world.shift, mono, round(world.raw), round(world.up))

    def boot(self):
        return self.world.boot_name

    def sleep(self, seconds):
        sleeper = getattr(threading.current_thread(), "sleeper", None)
        if sleeper:
            sleeper.sleep(max(0.0, seconds))
        else:
            self.world.advance(self.world.now + self.world.true_seconds(max(0.0, seconds)))

    def stat(self, path):
        file = self.file(path)
        return file.identity, len(file.data)

    def read(self, path, position, most=-1):
        data = self.file(path).data
        return bytes(data[position:] if most < 0 else data[position:position + most])

    def file(self, path):
        file = self.world.files.get(str(path))
        if file is None:
            raise FileNotFoundError(2, "No such file or directory")
        return file

    def run(self, words, folder, meanwhile):
        world = self.world
        if isinstance(world.broken_program, Exception):
            raise world.broken_program
        found = world.broken_program or world.decoder.run(words, folder, world)
        left = 120 if found[0] is None else world.decode_time()
        while left > 0:
            self.sleep(min(1.0, left))
            left -= 1.0
            if left > 0:
                meanwhile()
        return found

    def send(self, path, data):
        if not self.world.sockets.get(path, True):
            raise FileNotFoundError(2, "No such file or directory")
        second, micro, offset, _, _, _, _ = struct.unpack(SOCK_FORMAT, data)
        self.world.told.append(Told(self.world.now, "sock", offset, self.world.off()))
        if self.chronyd:
            self.chronyd.take(second + micro / 1e6, offset)

    def shared(self, unit, kind):
        """A segment that a daemon looks at each second: it refuses what was received more than five seconds ago."""
        self.segment = kind()

        def peek():
            shared, world = self.segment, self.world
            if shared.valid and world.on and world.awake:
                shared.valid = 0
                received = shared.receive_second + shared.receive_nano / 1e9
                if abs(world.real() - received) <= 5:
                    offset = shared.clock_second - shared.receive_second + (shared.clock_nano - shared.receive_nano) / 1e9
                    world.told.append(Told(world.now, "shm", offset, world.off()))
            world.at(world.now + 1, peek)
        self.world.at(self.world.now + 0.5, peek)
        return self.segment

    def outlet(self, to):
        def sent(data):
            words = data.decode().split(",")
            date = datetime(int(words[4]), int(words[3]), int(words[2]), int(words[1][:2]), int(words[1][2:4]), int(words[1][4:6]),
                            tzinfo=timezone.utc)
            second = date.timestamp()
            # A sentence says what is true now: it is wrong by what it is early or late.
            self.world.told.append(Told(self.world.now, "nmea", second - self.world.utc(), 0.0))
        return sent

    def beside(self, work):
        self.sleepers.append(Sleeper(self.world, work))

    def end(self):
        for sleeper in self.sleepers:
            sleeper.end()
        self.sleepers.clear()


# Receivers and their loggers


class Station:
    """What a station sends, second by second, and how each second is heard."""

    def __init__(self, name, world):
        self.name, self.world, self.minutes = name, world, {}

    def symbol(self, number, lie=0):
        """The symbol of a second since the world began, as a station sends it whose time is wrong by so much."""
        leap = self.world.leap
        unix, extra = self.world.begin + number + lie, 0
        if leap is not None and not lie:
            if number == math.floor(leap):
                unix, extra = unix - 1, 1
            elif number > leap:
                unix -= 1
        minute = unix // 60
        if minute not in self.minutes:
            self.minutes[minute] = self.minute(minute)
        return self.minutes[minute][unix % 60 + extra]

    def minute(self, minute):
        date = datetime.fromtimestamp(60 * minute, timezone.utc).replace(tzinfo=None)
        if self.world.leap is None or 60 * minute >= self.world.begin + self.world.leap:
            return radio.TELEGRAMS[self.name](date)
        return radio.listing(self.name, date, True).replace("?", "0").replace("*", "0")


class Receiver:
    """Hears a station, and gives its edges to a logger: with noise, and with a time that may be wrong or drift."""

    def __init__(self, world, station, logger, chance, percent=10, jitter=10, lie=0, drift=0.0, lies_from=0.0):
        self.world, self.station, self.logger, self.chance = world, station, logger, chance
        self.percent, self.jitter, self.lie, self.drift, self.lies_from = percent, jitter, lie, drift, lies_from
        self.level, self.silent = "H", False
        world.lies += (lie,) if lie else ()
        self.waves = {symbol: radio.wave(low) for symbol, low in radio.LOW[station.name].items()}
        self.kinds = list(self.waves.values())
        world.at(0.0, lambda: self.second(1))

    def second(self, number):
        """Hears a second, half of one before it begins, and then the next one."""
        lies, at = number >= self.lies_from, self.world.at
        symbol = self.station.symbol(number, self.lie if lies else 0)
        wave = self.waves[symbol]
        if self.percent and self.chance.below(100) < self.percent:
            wave = radio.other(wave, self.kinds, self.chance)
        begins = number + (self.drift * (number - self.lies_from) if lies else 0.0)
        before = self.level
        for tenth, level in enumerate(wave):
            if level != before:
                moved = (self.chance.below(2 * self.jitter + 1) - self.jitter) / 1000 if self.jitter else 0
                at(begins + 0.1 * tenth + moved, self.falls if level == "L" else self.rises)
                before = level
        self.level = before
        at(number + 0.5, lambda: self.second(number + 1))

    def rises(self):
        self.edge("H")

    def falls(self):
        self.edge("L")

    def edge(self, level):
        if not self.silent and self.world.on and self.world.awake:
            self.logger.edge(level)


class Logger:
    """Writes a log as contrib/tolog does, of one of the machine's clocks: it refuses a clock that goes back, and is started
    again behind that. A log of an earlier tolog doesn't say its clock: its times are Unix time (unsaid), or those of the
    monotonic clock with a shift that was noted when the world began (shifted)."""

    AGAIN = 5.0
    GAP = 2200

    def __init__(self, world, path, clock):
        self.world, self.path, self.clock = world, path, clock
        world.files[path] = File()
        world.loggers = (*world.loggers, self)
        self.fixed = world.shift
        self.stop()
        self.down = 0.0

    def stop(self):
        self.begun, self.waits, self.written, self.headed = False, None, None, 0
        self.down = self.world.now + self.AGAIN

    def millisecond(self):
        shift = {"monotonic": 0, "realtime": self.world.shift, "unsaid": self.world.shift, "shifted": self.fixed}
        at = self.world.mono + shift[self.clock]
        return round(at / 1e6) - (0 if self.clock == "monotonic" else 1000 * ZERO)

    def head(self, still=""):
        named = {"monotonic": f" clock monotonic {self.world.boot_name} zero 0",
                 "realtime": f" clock realtime zero {ZERO}"}.get(self.clock, f" zero {ZERO}")
        self.write(f"#{still}{named}: millisecond 0 is this second\n")
        self.headed = self.millisecond()

    def write(self, text):
        file = self.world.files.get(self.path)
        if file is not None:
            file.data += text.encode()

    def edge(self, level):
        if self.world.now < self.down:
            return
        now = self.millisecond()
        if not self.begun:
            self.head()
            self.begun = True
        elif self.waits and now < self.waits[0] - 1:
            self.stop()
            return
        if self.waits:
            at, before = self.waits
            if now <= at:
                self.waits = at, level
                return
            if before == level or now - at > self.GAP:
                before = "X"
            if before != self.written:
                if at >= self.headed + 600_000:
                    self.head(" still")
                self.write(f"{at} {before}\n")
                self.written = before
        self.waits = now, level

    # What happens to logs

    def rotate(self):
        """The log is renamed, and the logger started again."""
        self.world.files[self.path] = File()
        self.stop()

    def cut(self):
        """The log is emptied in place, as by logrotate's copytruncate: the logger goes on where it was, behind nulls, or at
        the beginning where it appends."""
        file = self.world.files[self.path]
        file.data[:] = b"\0" * len(file.data) if len(file.data) % 2 else b""

    def spoil(self, text):
        self.write(text)

    def delete(self, seconds):
        """Somebody removes the log, and the logger is started again later."""
        self.world.files.pop(self.path, None)

        def again():
            self.world.files[self.path] = File()
            self.stop()
        self.world.at(self.world.now + seconds, again)


# A daemon


class Chronyd:
    """Steps as `makestep 1 3` has it, and slews: it knows what it did to its clock, and goes by the last samples."""

    LIMIT, UPDATES, FASTEST, KEPT = 1.0, 3, 500e-6, 8

    def __init__(self, world, steps=True):
        self.world, self.steps, self.samples, self.updates, self.turn = world, steps, [], 0, 0

    def take(self, at, offset):
        """A sample: what the clock showed, and what it is to be moved by."""
        world = self.world
        age = world.real() - at
        if age < 0 or age > 128:
            return
        self.samples.append((world.raw / NANO - age, at + offset))
        self.samples = self.samples[-self.KEPT:]
        if len(self.samples) >= 3:
            self.update()

    def update(self):
        world = self.world
        middle = sum(raw for raw, _ in self.samples) / len(self.samples)
        mean = sum(utc - raw for raw, utc in self.samples) / len(self.samples)
        slope = sum((raw - middle) * (utc - raw - mean) for raw, utc in self.samples)
        slope /= sum((raw - middle) ** 2 for raw, _ in self.samples)
        now = world.raw / NANO
        error = now + mean + slope * (now - middle) - world.real()
        self.updates += 1
        if abs(error) > self.LIMIT and self.updates <= self.UPDATES and self.steps:
            world.step(error)
            error = 0.0
        self.turn += 1
        turn, rate = self.turn, math.copysign(self.FASTEST, error)
        world.freq = slope + (rate if error else 0.0)

        def settle():
            if self.turn == turn:
                world.freq = slope
        if error:
            world.at(world.now + min(abs(error) / self.FASTEST, 1e6), settle)


PROGRAM = os.environ.get("TSBANK") or find_program("tsbank") or "tsbank"

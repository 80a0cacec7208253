"""The loop of live: each minute a window, which is judged by the one in front of it and by each receiver alone."""
from collections import deque

from . import Refused
from .bank import Bank, Window
from .guard import judge, when
from .logs import Log
from .phase import PART, PARTS, slope
from .status import Status
from .tell import HOLD, Answer
from .watch import SAME, SECOND, Watch

SPARE = 2                  # seconds behind a window that are cut too: the phase is up to one, a delay up to half of one
SILENT = 10                # seconds without a line, at a window's end, after which a log is silent
SLEWED = 60                # seconds by which a clock may have been slewed within two windows
HOLE = 15                  # seconds for which nobody may look at the clocks, as while live is started again
FASTEST = 200e-6           # what a quartz may be wrong by
STEADY = 30e-6             # what two rates of one quartz may differ by
BESIDE = 0.05              # seconds by which a receiver alone may hear the seconds begin beside the bank
ALIKE = 15e-6              # what two rates may differ by that bear each other out
BRIEFLY = 20               # seconds for which sentences follow a time whose rate isn't known well
REMEMBERED = 1800          # seconds for which it counts what a receiver said alone


class Live:
    """Growing logs, the clocks of the machine, and whom to tell."""

    def __init__(self, machine, asked, limits, folder, teller):
        self.machine, self.asked, self.limits, self.teller = machine, asked, limits, teller
        self.span = asked.seconds + SPARE
        hole = asked.seconds + 60 if asked.once else HOLE
        self.watch = Watch(2 * self.span + asked.step + 60, hole)
        self.boot = machine.boot()
        if asked.state:
            self.watch.load(asked.state, self.boot)
        self.logs = [Log(machine, path, 2 * self.span + asked.step + 60, asked.zero) for path in asked.logs]
        self.bank = Bank(machine, asked, limits, folder, self.look)
        self.windows = deque(maxlen=2 + self.span // max(1, asked.step))
        self.said = {receiver.name: deque(maxlen=2) for receiver in self.bank.receivers}
        self.status = Status(machine, asked, self.bank)

    # The clocks and the logs, second by second

    def look(self):
        """Looks at the clocks and reads what is new of the logs. Where the clock was set, nobody is told by it any more."""
        clocks = self.machine.clocks()
        slept = self.watch.looks[-1].slept if self.watch.looks else clocks.boot - clocks.mono
        if self.watch.look(clocks) and self.teller:
            self.teller.stop()
        if abs(self.watch.looks[-1].slept - slept) > SAME:
            # While the machine slept UTC went on and the quartz didn't: what was heard before fits nothing behind it.
            self.windows.clear()
            for said in self.said.values():
                said.clear()
        for log in self.logs:
            log.follow(clocks)
        return clocks

    def raw(self, mono):
        return self.watch.raw(mono)

    def records(self, log, begin):
        """What a log has of the window that begins at a nanosecond of the quartz, by that quartz, and some more."""
        slew, shift = self.watch.looks[-1].slew, self.watch.shift()
        found = log.between(begin + slew - SLEWED * SECOND, begin + slew + (self.span + SLEWED) * SECOND, shift)
        return [(self.raw(at), level) for at, level in found]

    def refusals(self, since):
        """Why logs can't serve that are to tell something from a nanosecond of the quartz on, by their names."""
        begin = since + self.watch.looks[-1].slew
        found = {log.name: log.refusal(self.boot, self.watch, begin) for log in self.logs}
        return {name: why for name, why in found.items() if why}

    # Windows

    def window(self, begin, since):
        """What the window says that begins at a nanosecond of the quartz, or why it is kept back."""
        silent, records = self.refusals(since), {}
        end = begin + self.span * SECOND
        for log in self.logs:
            found = self.records(log, begin) if log.name not in silent else []
            if log.name not in silent and not any(end - SILENT * SECOND < at for at, _ in found):
                silent[log.name] = f"no line in the last {SILENT} seconds"
            records[log.name] = found
        if len(silent) == len(self.logs):
            return Window(begin, None, "; ".join(f"{name}: {why}" for name, why in silent.items()), None, {}, silent)
        heard = self.bank.hear(begin, records, self.machine.clocks().real / 1e9, silent)
        for name, (reading, _) in heard.alone.items():
            if reading:
                self.said[name].append(reading)
        return heard

    def front(self, begin):
        """The window that is remembered of those that end before this one begins, and no more than a step before it."""
        for window in reversed(self.windows):
            apart = begin - window.begin - self.span * SECOND
            if 0 <= apart <= self.asked.step * SECOND:
                return window
        return None

    def judged(self, end):
        """The window that ends at a nanosecond of the quartz, the answer that it gives, and why that is kept back. Windows
        that overlap share their noise, and may agree on a wrong time: so the one that it is held against ended before it."""
        begin, slept = end - self.span * SECOND, self.slept()
        front = self.front(begin)
        since = front.begin if front else begin - self.span * SECOND
        window = self.window(begin, since)
        self.windows.append(window)
        if window.why:
            return window, None, window.why
        if not front:
            front = self.window(since, since)
        why = judge(window.reading, front.reading, self.limits)
        if why:
            return window, None, f"{why} ({front.why})" if front.why else why
        rate = (window.reading.offset - front.reading.offset) / (window.reading.heard - front.reading.heard)
        why = self.rated(rate, window.line) or self.dissent(window)
        # A sleep of the machine while it was decoded is seen by how long it had slept before.
        answer = (self.carried(window, rate) if self.watched(since) else self.ending(window, rate))._replace(slept=slept)
        return window, answer, why or self.unwatched(end, since)

    def watched(self, since):
        """Whether it is known how the clock was slewed from a nanosecond of the quartz on."""
        return self.watch.since(since + self.watch.looks[-1].slew) is not None

    def carried(self, window, rate):
        """The answer of the minute in the window's middle, which is carried on by the rate between both windows."""
        return self.answer(window, window.reading.heard, window.reading.offset, rate)

    def ending(self, window, between):
        """The answer of the window's last part: slews in front of it that nobody watched don't move that. The rate is the one
        between both windows where the window's own bears it out, else that of the parts that were watched, or none. Sentences
        don't follow it for long."""
        line, reading = window.line, window.reading
        begin, begins = window.begin / 1e9, self.watch.raw(self.watch.begins()) / 1e9
        watched = [part for part in line.parts if begin + part[0] - PART / 2 >= begins]
        rate = -slope(watched) if len(watched) >= PARTS else 0.0
        if abs(between + line.rate) < ALIKE:
            rate = between
        last, behind = line.parts[-1]
        beside = behind - line.middle - line.rate * (last - self.asked.seconds / 2)
        at = begin + last
        offset = reading.offset - line.rate * (at - reading.heard) - beside
        return self.answer(window, at, offset, rate)._replace(hold=BRIEFLY)

    def answer(self, window, at, offset, rate):
        reading = window.reading
        return Answer(reading.minute, at, offset, rate, reading.cost, reading.margin, reading.leap, 0, HOLD)

    def slept(self):
        return self.watch.looks[-1].slept

    def unwatched(self, end, since):
        """After a start at least the last part of a window must have been watched."""
        if self.asked.once or self.watched(since) or self.watched(end - (PART + SPARE) * SECOND):
            return None
        return "the clocks weren't watched through the window's last minute yet"

    def rated(self, rate, line):
        """Why the rate of a quartz keeps an answer back, or None."""
        if abs(rate) > FASTEST:
            return f"the clock of the logs is wrong by {1e6 * abs(rate):.0f} parts in a million: no more than {1e6 * FASTEST:.0f} may be"
        if abs(rate + line.rate) > STEADY + line.doubt:
            return f"the clock of the logs changed its rate, by {1e6 * abs(rate + line.rate):.0f} parts in a million"
        return None

    def dissent(self, window):
        """Which receiver says otherwise alone, or None: by this window, or by two others of the last while that agree."""
        reading, agree = window.reading, self.limits.agree
        for name, said in self.said.items():
            now = window.alone.get(name, (None, None))[0]
            apart = now.offset - reading.offset if now else 0
            if abs(apart) > agree:
                return f"{name} alone says something else, by {apart:+.3f} s"
            if abs(apart) > BESIDE:
                return f"{name} alone hears the seconds begin {-apart:+.3f} s behind the others"
            recent = [one for one in said if reading.heard - one.heard < REMEMBERED]
            if len(recent) == 2 and abs(recent[0].offset - recent[1].offset) <= agree < abs(recent[1].offset - reading.offset):
                return f"{name} alone said something else, by {recent[1].offset - reading.offset:+.3f} s"
        return None

    # Telling

    def step(self):
        """One window: prints its line and answers whether all who were asked for were told."""
        try:
            clocks = self.look()
            window, answer, why = self.judged(clocks.raw - round(self.asked.lag * SECOND))
        except (Refused, OSError) as error:
            window, answer, why = None, None, str(error)
        if why:
            return self.kept(window, answer, why)
        self.look()
        return self.tell(window, answer)

    def kept(self, window, answer, why):
        self.say(f"kept back: {why}{self.deaf(window, why)}")
        self.status.write(window, answer, why)
        return False

    def deaf(self, window, why=""):
        """Which logs told nothing, where the line doesn't say it already."""
        silent = window.silent if window else {}
        return "".join(f"; {name}: {reason}" for name, reason in silent.items() if reason not in why)

    def tell(self, window, answer):
        offset, sent, wrong = self.teller.tell(answer)
        if offset is None:
            return self.kept(window, answer, wrong[0])
        asked = sent + len(wrong)
        word = "told" if sent else "not told" if asked else "would be told"
        failed = "".join(f"; {one}" for one in wrong)
        self.say(f"{word}: {when(answer.minute)}, offset {offset:+.3f} s, cost {answer.cost:.1f} a second, "
                 f"margin {answer.margin}, rate {-1e6 * answer.rate:+.0f} ppm{failed}{self.deaf(window)}")
        self.status.write(window, answer, "; ".join(wrong), offset=offset, told=bool(sent))
        return not wrong

    def say(self, text):
        print(f"{when(self.machine.clocks().real // SECOND)} {text}", flush=True)

    def keep(self):
        if self.asked.state:
            self.watch.save(self.asked.state, self.boot)

    def once(self):
        told = self.step()
        self.keep()
        return told

    def run(self):
        """A look each second, and a window each minute, by a clock that nobody sets. The second comes as soon as the last part of
        a window was watched."""
        due = self.machine.clocks().mono
        settled = due + round((PART + SPARE + self.asked.lag + 1) * SECOND)
        while True:
            now = self.look().mono
            if now >= due:
                self.step()
                self.keep()
                now = self.machine.clocks().mono
                due = settled if now < settled else max(due + self.asked.step * SECOND, now)
            self.machine.sleep(1 - now % SECOND / 1e9)


class Replay(Live):
    """Logs at rest, as if they were growing: their own clock takes the place of all clocks, and nobody is told."""

    def __init__(self, machine, asked, limits, folder):
        super().__init__(machine, asked, limits, folder, None)
        self.logs = [Log(machine, path, 10 ** 9, asked.zero, whole=True) for path in asked.logs]
        for log in self.logs:
            log.follow(None)
            if log.missing or not log.section:
                raise Refused(f"{log.path}: {log.missing or 'no line of it says which second is millisecond 0, and --zero neither'}")

    def look(self):
        return self.machine.clocks()

    def records(self, log, begin):
        return log.between(begin, begin + self.span * SECOND, 0)

    def refusals(self, since):
        return {}

    def watched(self, since):
        return True

    def slept(self):
        return 0

    def replay(self):
        """All windows; answers how many would be told and how many kept back."""
        moments = [log.mono(log.records[at][0], 0) for log in self.logs if log.records for at in (0, -1)]
        if not moments:
            raise Refused("the logs have no records")
        end, last = min(moments) // SECOND * SECOND + (2 * self.asked.seconds + 5) * SECOND, max(moments)
        if end > last:
            raise Refused(f"the logs are shorter than two windows of {self.asked.seconds} seconds: --seconds says how long one is")
        counts = [0, 0]
        while end <= last:
            window, answer, why = self.judged(end)
            counts[bool(why)] += 1
            if why:
                print(f"{when(end // SECOND)} kept back: {why}", flush=True)
            else:
                offset = answer.utc(end) - end / 1e9
                print(f"{when(end // SECOND)} would be told: {when(answer.minute)}, offset {offset:+.3f} s, cost {answer.cost:.1f} "
                      f"a second, margin {answer.margin}, rate {-1e6 * answer.rate:+.0f} ppm", flush=True)
            end += self.asked.step * SECOND
        print(f"told {counts[0]}, kept back {counts[1]}")
        return tuple(counts)

"""Growing logs: of which clock their times are, and their records of the last while."""
import bisect
import re
from collections import namedtuple
from pathlib import Path

# Of which clock a log's times are: monotonic or realtime, or another that can't set a clock; of which boot; and which second
# of it is millisecond 0.
Section = namedtuple("Section", "clock boot zero")

TAIL = 1_000_000           # bytes of a log's end that are read at first
HEAD = 300                 # bytes in which its first line ends
LONG = 1_000               # a line of more bytes is none
SLACK = 2_000              # milliseconds by which a record may lie behind this moment
RECORD = re.compile(rb"(0|[1-9][0-9]{0,11}) ([HLX])")
SECTION = re.compile(rb"# *(still )?(?:clock (\w+)(?: ([0-9a-f-]{36}))? )?zero (\d+)")


class Log:
    """A growing log, of which each new line is read once."""

    def __init__(self, machine, path, keep, zero=None, whole=False):
        self.machine, self.path, self.keep, self.whole = machine, path, 1000 * keep, whole
        self.name = Path(path).name
        self.section = Section("realtime", None, zero) if zero is not None else None
        self.records = []          # pairs of a millisecond and a level
        self.place = None          # which file it is, and up to where it was read
        self.rest = b""            # a line that is still being written
        self.missing = ""          # why it can't be read now
        self.again = False         # whether its logger was started again, and has written no record yet

    def follow(self, clocks):
        """Reads what is new. A file that was cut, or took the place of another, is read from its beginning."""
        try:
            identity, size = self.machine.stat(self.path)
            if self.place == (identity, size):
                self.missing = ""
                return
            position = self.position(identity, size)
            data = self.machine.read(self.path, position)
            head = b"" if self.section or self.place else self.machine.read(self.path, 0, HEAD)
        except OSError as error:
            self.missing = error.strerror or str(error)
            return
        self.missing = ""
        first = self.place is None
        self.place = identity, position + len(data)
        if first and position:
            # The first line of the tail may be half a line.
            data = data[data.find(b"\n") + 1:]
            self.comment(head.split(b"\n")[0])
        self.take(data, self.now(clocks))

    def position(self, identity, size):
        if self.place is None:
            return 0 if self.whole else max(0, size - TAIL)
        if self.place[0] == identity and size >= self.place[1]:
            return self.place[1]
        self.rest = b""
        self.lost()
        return 0

    def now(self, clocks):
        """A function that tells which millisecond of the log it is, by the section that is being read."""
        def millisecond():
            clock = self.section.clock if self.section else None
            at = None if clocks is None else {"monotonic": clocks.mono, "realtime": clocks.real}.get(clock)
            return None if at is None else at // 1_000_000 - 1000 * self.section.zero
        return millisecond

    def take(self, data, now):
        lines = (self.rest + data).split(b"\n")
        self.rest = lines.pop()[-LONG:]
        for line in lines:
            self.line(line.lstrip(b"\0").rstrip(b"\r"), now)
        if self.records and self.records[0][0] < self.records[-1][0] - 2 * self.keep:
            first = bisect.bisect_left(self.records, (self.records[-1][0] - self.keep, ""))
            del self.records[:max(0, first - 1)]

    def line(self, line, now):
        # What stands in front of a comment is the half line that a logger left which was ended.
        front, sign, comment = line.partition(b"#")
        found = RECORD.fullmatch(front)
        if found and self.fits(int(found[1]), now()):
            self.records.append((int(found[1]), found[2].decode()))
            self.again = False
        elif front:
            self.lost()
        if sign:
            self.comment(sign + comment)

    def fits(self, at, now):
        """Whether a record may have this time: later than the one before it, and not later than this moment. Where a logger
        was started again, its clock may have been set back: then what stands before tells nothing."""
        if now is not None and at > now + SLACK:
            return False
        if self.again and self.records and at <= self.records[-1][0]:
            self.records.clear()
        return not self.records or at > self.records[-1][0]

    def lost(self):
        """Something was lost here: from the last record on nothing is known, until the next one."""
        if self.records:
            self.records[-1] = self.records[-1][0], "X"

    def comment(self, line):
        found = SECTION.match(line)
        if not found:
            return
        still, clock, boot, zero = found.groups()
        section = Section(clock and clock.decode(), boot and boot.decode(), int(zero))
        if self.section != section and (self.section or not still):
            self.records.clear()
        elif not still:
            self.lost()
        self.again = self.again or not still
        self.section = section

    def refusal(self, boot, watch, begin):
        """Why the log can't set a clock by what it has from a moment of the monotonic clock on, or an empty text."""
        if self.missing:
            return self.missing
        if not self.section:
            return "no line of it says which clock its times are of, as contrib/tolog writes it"
        if self.section.clock == "monotonic":
            if self.section.boot != boot:
                return f"its times are of another boot of a machine, {self.section.boot}"
            return "" if watch.awake(begin) else "the machine slept, or nobody watched whether it did"
        if self.section.clock == "realtime":
            return "" if watch.unset(begin) else "the machine's clock was set, or nobody watched whether it was"
        return "its times can't set a clock: contrib/tolog with clock=monotonic writes those of a clock that nobody sets"

    def mono(self, ms, shift):
        """The monotonic time of a millisecond of the log, in nanoseconds."""
        at = 1_000_000 * (1000 * self.section.zero + ms)
        return at if self.section.clock == "monotonic" else at - shift

    def between(self, begin, end, shift):
        """The records between two moments of the monotonic clock, with the one before and the one after, as pairs of such a
        moment and a level."""
        start = self.mono(0, shift)
        first = bisect.bisect_right(self.records, ((begin - start) // 1_000_000, "~"))
        last = bisect.bisect_left(self.records, ((end - start) // 1_000_000 + 1, ""))
        return [(self.mono(at, shift), level) for at, level in self.records[max(0, first - 1):last + 1]]

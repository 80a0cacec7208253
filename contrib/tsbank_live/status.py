"""What live says of itself at any time: a line of JSON a window, and figures that a monitor reads."""
import json
import os
import re

from .guard import when
from .machine import write_whole
from .watch import SECOND

MOST = 1_000_000           # bytes of a status log, behind which it begins anew and the last one is kept

FIGURES = (
    # A figure of the text format of Prometheus: its name, its kind, what it is, and the key that it has in a status.
    ("tsbank_told", "gauge", "Whether the last window was told.", "told"),
    ("tsbank_offset_seconds", "gauge", "What the clock is to be moved by.", "offset"),
    ("tsbank_cost_per_second", "gauge", "What the last window costs a second.", "cost"),
    ("tsbank_margin", "gauge", "How much more the next reading costs.", "margin"),
    ("tsbank_rate_ppm", "gauge", "By how many parts in a million the quartz is fast.", "rate"),
    ("tsbank_last_told_timestamp_seconds", "gauge", "When a time was told last, by the machine's clock.", "last_told"),
)


class Status:
    """Writes what was asked for: --status FILE and --metrics FILE."""

    def __init__(self, machine, asked, bank):
        self.machine, self.asked, self.bank = machine, asked, bank
        self.told, self.kept, self.last = 0, 0, None      # the last is a pair: real time and monotonic time
        heard = os.path.join(os.path.dirname(asked.tsbank), "tsheard")
        self.tsheard = heard if os.path.isfile(heard) else None

    def write(self, window, answer, why, offset=None, told=False):
        clocks = self.machine.clocks()
        if told:
            self.told, self.last = self.told + 1, clocks
        else:
            self.kept += 1
        if not (self.asked.status or self.asked.metrics):
            return
        found = self.found(clocks, window, answer, why, offset, told)
        try:
            if self.asked.status:
                self.append(json.dumps(found) + "\n")
            if self.asked.metrics:
                write_whole(self.asked.metrics, self.figures(found))
        except OSError as error:
            print(f"live: {error}", flush=True)

    def found(self, clocks, window, answer, why, offset, told):
        """A window's status. What isn't known is null."""
        reading = window.reading if window else None
        return {
            "time": when(clocks.real // SECOND), "told": told, "why": why or None,
            "minute": when(reading.minute) if reading else None,
            "offset": None if offset is None else round(offset, 6),
            "cost": round(reading.cost, 3) if reading else None,
            "margin": reading.margin if reading else None,
            "rate": round(-1e6 * answer.rate, 3) if answer else None,
            "receivers": self.receivers(window),
            "last_told": round(self.last.real / 1e9, 3) if self.last else None,
            "age": round((clocks.mono - self.last.mono) / 1e9, 1) if self.last else None,
        }

    def receivers(self, window):
        """Each receiver: its share of the cost, the seconds of it that are unknown, and what it says alone."""
        sums = self.sums() if window and window.reading else {}
        found = []
        for number, receiver in enumerate(self.bank.receivers):
            cost, unknown = sums.get(number + 1, (None, None))
            reading, why = window.alone.get(receiver.name, (None, None)) if window else (None, None)
            silent = window.silent.get(receiver.log) if window else None
            alone = None if not reading else "agrees" if abs(reading.offset - window.reading.offset) <= self.asked.agree else "says otherwise"
            found.append({"name": receiver.name, "silent": silent, "cost": cost, "unknown": unknown, "alone": alone or why})
        return found

    def sums(self):
        """What each receiver costs a second, and how many seconds of it are unknown: tsheard tells it of the last window."""
        if not self.tsheard:
            return {}
        seconds = self.asked.seconds
        words = [self.tsheard, self.asked.config, "--start", "0", "--seconds", str(seconds)]
        try:
            _, text, _ = self.machine.run(words, self.bank.cuts, self.bank.meanwhile)
        except OSError:
            return {}
        told = re.findall(r"^sum receiver (\d+) unknown (\d+) cost (\d+)", text, re.MULTILINE)
        return {int(number): (round(int(cost) / seconds, 3), int(unknown) / 10) for number, unknown, cost in told}

    def append(self, line):
        """The last line stands in the file, and all in its log."""
        write_whole(self.asked.status, line)
        log = self.asked.status + ".log"
        if os.path.exists(log) and os.path.getsize(log) + len(line) > MOST:
            os.replace(log, log + ".1")
        with open(log, "a") as file:
            file.write(line)

    def figures(self, found):
        lines = []
        for name, kind, what, key in FIGURES:
            if found[key] is not None:
                lines += [f"# HELP {name} {what}", f"# TYPE {name} {kind}", f"{name} {float(found[key]):.15g}"]
        lines += ["# HELP tsbank_windows_total Windows since live was started.", "# TYPE tsbank_windows_total counter",
                  f'tsbank_windows_total{{result="told"}} {self.told}', f'tsbank_windows_total{{result="kept back"}} {self.kept}']
        known = [one for one in found["receivers"] if one["cost"] is not None]
        if known:
            lines += ["# HELP tsbank_receiver_cost_per_second What a receiver costs a second.",
                      "# TYPE tsbank_receiver_cost_per_second gauge"]
            lines += [f'tsbank_receiver_cost_per_second{{receiver="{one["name"]}"}} {one["cost"]:.15g}' for one in known]
        return "\n".join(lines) + "\n"

"""Reads what tsbank and tsheard print, by docs/FORMATS.md, into dicts and lists such as JSON has.

`read` takes any of these texts. What is a number there is a number here, LEAP is true or false, and what a text leaves open,
as the cost behind `next none`, is None. Texts are read strictly: a line that isn't in its place is refused, and so is a text
that was cut.
"""
import re

MINUTE = r"\d{4}-\d\d-\d\dT\d\d:\d\dZ"
STATION = "dcf77|msf|wwvb|jjy"
SEQUENCE = f"({MINUTE}) (\\d+) (yes|no)"
COST = r"cost (\d+)"
HEARD = f"unknown (\\d+) {COST}"
FAULT = re.compile(
    r"(?:line (?P<line>\d+): )?(?P<why>usage|bad (?P<value>\S+)|--to is before --from|too large|not toml|"
    r"(?:missing|wrong kind|out of range) (?P<key>.+)|unknown key|shape|not rising|too many records|too many steps|"
    r"too many frames|timing|meaning|other window|(?:uncovered|wrong bound|not above) at step (?P<step>\d+)|"
    r"wrong ends (?P<ends>-|\d+))"
)
REFUSAL = re.compile(
    r"(?P<what>words|configuration|log (?P<receiver>\d+) (?P<name>[a-z0-9_-]+)|certificate(?: (?P<offset>\d+))?|queries|frames): (?P<fault>.*)"
)


class Refused(Exception):
    """The text is none of those that are read here."""


class Lines:
    """The lines of a text, from the first that wasn't read yet."""

    def __init__(self, text):
        self.lines, self.at = [line[:-1] if line.endswith("\r") else line for line in text.split("\n")], 0
        if self.lines.pop():
            raise Refused(f"line {len(self.lines) + 1} doesn't end: the text was cut")

    def take(self, form):
        """What the next line has at the groups of a form, or None where it isn't of that form. Then it stays the next."""
        found = re.fullmatch(form, self.lines[self.at], re.ASCII) if self.at < len(self.lines) else None
        self.at += bool(found)
        return found and found.groups()

    def need(self, form):
        return self.take(form) or self.refuse()

    def all(self, form):
        """The groups of as many lines as are of that form."""
        found = []
        while (one := self.take(form)) is not None:
            found.append(one)
        return found

    def refuse(self):
        if self.at == len(self.lines):
            raise Refused("the text was cut" if self.lines else "the text is empty")
        raise Refused(f"line {self.at + 1}: not what stands there in a text of tsbank: {self.lines[self.at][:40]}")

    def end(self):
        if self.at < len(self.lines):
            self.refuse()


def number(word):
    """A number, or None where the text has a word such as `none` or `-`."""
    return int(word) if re.fullmatch(r"-?\d+", word) else None


def sequence(minute, second, leap):
    return {"minute": minute, "second": int(second), "leap": leap == "yes"}


def report(lines):
    """A report, or None where none begins here."""
    found = lines.take(r"(decided|undecided) (\d+)|(none)")
    if not found:
        return None
    answer, cost, none = found
    told = {"answer": answer or none, "cost": cost and int(cost), "phase": int(lines.need(r"phase (\d+)")[0]), "sequences": []}
    for _ in range({"decided": 1, "undecided": 2}.get(answer, 0)):
        told["sequences"].append(sequence(*lines.need(f"sequence {SEQUENCE}")))
    if answer == "decided":
        following = number(lines.need(r"next (\d+|none)")[0])
        told["next"], told["margin"] = following, following and following - told["cost"]
        told["dut1"] = [dut1(*one) for one in lines.all(f"dut1 (?:({STATION}) )?(-?\\d|undecided|free)")]
        told["minutes"] = [{"minute": minute, "at": int(at)} for minute, at in lines.all(f"minute ({MINUTE}) at (\\d+)")]
    return told


def dut1(station, value):
    """Of a bank of one station the text doesn't name it."""
    tenths = number(value)
    return {"station": station, "tenths": tenths, "why": value if tenths is None else None}


def certified(lines):
    """What check and judge print of certificates that are valid."""
    return lines.take("(certified)") and {"certified": True, **(report(lines) or lines.refuse())}


def windows(lines):
    """What follow prints."""
    found = []
    while (start := lines.take(r"window (\d+)")):
        found.append({"start": int(start[0]), **(report(lines) or lines.refuse())})
    return found and {"windows": found}


def told_time(minute, second):
    return {"minute": minute, "second": second and int(second)}


def board(lines):
    """What board prints."""
    live = lines.all(f"live (\\d+) (?:({MINUTE}) (\\d+)|unknown) of (\\d+)")
    if not live:
        return None
    every = [lines.need(f"at (\\d+) (?:({MINUTE}) (\\d+)|unknown)") for _ in live]
    return {
        "live": [{"at": int(at), **told_time(*time), "windows": int(count)} for at, *time, count in live],
        "at": [{"at": int(at), **told_time(*time)} for at, *time in every],
    }


def seconds_of_frames(lines):
    """What irig-read prints."""
    found = lines.all(f"at (\\d+) ({MINUTE}) (\\d+)")
    return found and {"frames": [{"at": int(at), **told_time(*time)} for at, *time in found]}


def edges(lines):
    """The text of frames that irig prints. A log of receivers has such lines too."""
    found = lines.all(r"(\d+) ([HLX])")
    return found and {"edges": [{"at": int(at), "level": level} for at, level in found]}


def feed(lines):
    """The sentences of feed, and the minute that each tells."""
    found = lines.all(r"(\$GPZDA,(\d\d)(\d\d)00\.00,(\d\d),(\d\d),(\d{4}),00,00\*[0-9A-F]{2})")
    return found and {"sentences": [
        {"minute": f"{year}-{month}-{day}T{hour}:{minute}Z", "sentence": text} for text, hour, minute, day, month, year in found
    ]}


def listing(lines):
    """What encode prints."""
    head = lines.take(f"encode ({STATION}) ({MINUTE}) (6[01])")
    if not head:
        return None
    characters, = lines.need(r"([-0-3M?*]{%s})" % head[2])
    return {"station": head[0], "minute": head[1], "length": int(head[2]), "seconds": characters}


def trial(lines):
    found = lines.take(r"trial (\d+)")
    if not found:
        return None
    station, = lines.need(f"station ({STATION})")
    told = {"trial": int(found[0]), "station": station, "receivers": int(lines.need(r"receivers (\d+)")[0])}
    told["sent"] = sequence(*lines.need(f"sent {SEQUENCE}"))
    told["answer"], = lines.need("(decided|undecided|none)")
    named = {"decided": ["first"], "undecided": ["first", "other"]}.get(told["answer"], [])
    return {**told, "sequences": [sequence(*lines.need(f"{name} {SEQUENCE}")) for name in named]}


def receiver(which, unknown, cost):
    return {"receiver": int(which), "unknown": int(unknown), "cost": int(cost)}


def heard(lines):
    """What tsheard prints of a decided window, with `next` where the text has that line."""
    following, slots = lines.all(r"next (\d+|none)"), []
    while (slot := lines.take(f"slot (\\d+) ({MINUTE}) (\\d+) ({STATION}) sent (.) {COST} best (.) {COST}")):
        place, minute, second, station, sent, cost, best, best_cost = slot
        slots.append({
            "slot": int(place), "minute": minute, "second": int(second), "station": station,
            "sent": {"symbol": sent, "cost": int(cost)}, "best": {"symbol": best, "cost": int(best_cost)},
            "receivers": [receiver(*one) for one in lines.all(f"receiver (\\d+) {HEARD}")],
        })
    if not slots:
        return lines.refuse() if following else None
    sums = [receiver(*one) for one in lines.all(f"sum receiver (\\d+) {HEARD}")]
    following += lines.all(r"next (\d+|none)")
    if sums != added(slots):
        raise Refused("the lines don't add up to their sums: the text was cut")
    told = {"slots": slots, "sums": sums}
    if following:
        told["next"] = number(following[0][0])
        told["margin"] = told["next"] and told["next"] - sum(one["cost"] for one in sums)
    return told


def added(slots):
    """What the lines of each receiver add up to, in the order of their numbers."""
    sums = {}
    for slot in slots:
        for one in slot["receivers"]:
            known = sums.setdefault(one["receiver"], receiver(one["receiver"], 0, 0))
            known["unknown"] += one["unknown"]
            known["cost"] += one["cost"]
    return [sums[which] for which in sorted(sums)]


def refusal(lines):
    """A refusal's line: what was refused, why, and where."""
    found = REFUSAL.fullmatch(lines.lines[lines.at])
    fault = found and FAULT.fullmatch(found["fault"])
    if not fault:
        return None
    lines.at += 1
    told = {"refused": found["what"].split()[0], "why": fault["why"].split(" at step ")[0]}
    for key in ("receiver", "offset"):
        if found[key]:
            told[key] = int(found[key])
    if found["name"]:
        told["name"] = found["name"]
    for key in ("line", "step"):
        if fault[key]:
            told[key] = int(fault[key])
    for key, why in (("value", "bad"), ("key", None), ("ends", "wrong ends")):
        if fault[key]:
            told["why"] = why or fault["why"][:-len(fault[key]) - 1]
            told[key] = number(fault[key]) if key == "ends" else fault[key]
    return told


KINDS = (report, certified, windows, board, seconds_of_frames, edges, feed, listing, trial, heard, refusal)


def read(text):
    """Any of these texts. One without a line, as of `feed` where no minute begins in the window, has nothing in it: {}."""
    lines = Lines(text)
    if not lines.lines:
        return {}
    told = next((told for told in (kind(lines) for kind in KINDS) if told), None)
    if not told:
        lines.refuse()
    lines.end()
    return told

"""The text of a certificate, when one is valid, and the shortest one, by docs/FORMATS.md alone.

Nothing here knows the program.
"""
import re
from functools import lru_cache

import radio
from banks import END, GREATEST_COST, NUMBER
from blocks import KEY_COSTS, block_key, ceiling_key, children, items

MOST_BYTES = 128_000_000
MOST_STEPS = 2_000_000
MOST_PARTS = 8
LONGEST_LINE = 100
INDEXES = 122 * END
# The numbers that the lines 3 to 8 tell: from the first, up to and without the second.
HEAD = {
    "start": (0, 10 ** 12), "phase": (0, 1000), "seconds": (60, 1201), "from": (0, END), "to": (1, END + 1),
    "ceiling": (0, GREATEST_COST + 1),
}
STEP = re.compile(r"([OPEL]) ([YDHM]) ([01]) (0|[1-9][0-9]*) (0|[1-9][0-9]*) (0|[1-9][0-9]*) (-|0|[1-9][0-9]*)", re.ASCII)


class Certificate:
    """What a text says: the stations, the numbers of the head, the two keys, and the steps of all parts."""

    def __init__(self):
        self.stations, self.numbers, self.keys, self.steps = [], {}, [], []


class BadLine(Exception):
    """The text is refused for this line."""

    def __init__(self, number, way):
        super().__init__(f"line {number}: {way}")


def lines_of(data):
    """The lines of a text, one after the other; the last is None where it lacks its LF."""
    at = 0
    while at < len(data):
        end = data.find(b"\n", at, at + LONGEST_LINE)
        yield data[at:end].decode("latin-1") if end >= 0 else None
        at = end + 1 if end >= 0 else len(data)


def number_in(word, least, end):
    """The number of a word, or None where it isn't one from the least up to, and without, the end."""
    return int(word) if NUMBER.fullmatch(word) and least <= int(word) < end else None


def key_in(line, word):
    """The key that a line of the head names, as a list of one: none is None."""
    found = line[len(word) + 1:] if line and line.startswith(word + " ") else ""
    if found == "-":
        return [None]
    value = number_in(found, 0, (GREATEST_COST + 1) * KEY_COSTS)
    return [value] if value is not None and value % KEY_COSTS < INDEXES else []


def stations_in(line, version):
    """The stations that line 2 names, or none where it isn't in order."""
    word, *names = line.split(" ") if line else [""]
    several = version == "tsbank certificate 2"
    fits = word == ("stations" if several else "station") and (len(names) > 1) == several
    return names if fits and names and names == [one for one in radio.STATIONS if one in names] else []


@lru_cache(100_000)
def step_in(line):
    """The kind, the block and the bound of a step, or None."""
    form = STEP.fullmatch(line)
    if not form:
        return None
    kind, span, announced, second, lo, hi, bound = form.groups()
    block = span, int(announced), int(second), int(lo), int(hi)
    bound = None if bound == "-" else int(bound)
    fits = block[2] <= 60 and block[3] < block[4] <= END and (bound is None or bound <= GREATEST_COST)
    fits = fits and (kind == "E") == (bound is None) and not (kind == "L" and span != "M") and not (kind == "O" and span == "M")
    return (kind, block, bound) if fits else None


def read_head(lines, found):
    """Reads the first ten lines, of which the last two name keys."""
    version = next(lines, None)
    if version not in ("tsbank certificate 1", "tsbank certificate 2"):
        raise BadLine(1, "shape")
    found.stations = stations_in(next(lines, None), version)
    if not found.stations:
        raise BadLine(2, "shape")
    for number, (word, (least, end)) in enumerate(HEAD.items(), 3):
        line = next(lines, None)
        told = line[len(word) + 1:] if line and line.startswith(word + " ") else ""
        found.numbers[word] = number_in(told, found.numbers["from"] + 1 if word == "to" else least, end)
        if found.numbers[word] is None:
            raise BadLine(number, "shape")
    for number, word in ((9, "first"), (10, "second")):
        told = key_in(next(lines, None), word)
        if not told:
            raise BadLine(number, "shape")
        found.keys += told


def read_text(data):
    """The certificate that bytes are the text of."""
    found, lines, part = Certificate(), lines_of(data), 0
    read_head(lines, found)
    number = 10
    for number, line in enumerate(lines, 11):
        if line == "end" and part:
            break
        if line == f"worker {part}" and part < MOST_PARTS:
            part += 1
            continue
        step = step_in(line) if line and part else None
        if not step:
            raise BadLine(number, "shape")
        if len(found.steps) == MOST_STEPS:
            raise BadLine(number, "too many steps")
        found.steps.append(step)
    else:
        raise BadLine(number + 1, "shape")
    if next(lines, "over") != "over":
        raise BadLine(number + 1, "shape")
    return found


def head_of(heard):
    """The numbers that the lines 3 to 8 are to tell."""
    return dict(zip(HEAD, (heard.start, heard.phase, heard.seconds, heard.first, heard.end, heard.ceiling)))


def told_key(value):
    return "-" if value is None else str(value)


def limit_of(second, ceiling):
    return ceiling_key(ceiling) if second is None else min(second, ceiling_key(ceiling))


def fault_in_steps(judge, steps, limit):
    """The line of the first step that is wrong, or None."""
    due, left = [], set(items(judge.heard))
    for number, (kind, block, bound) in enumerate(steps, 1):
        if not (block == due[-1] if due else block in left):
            return f"uncovered at step {number}"
        if bound != judge.bound(block):
            return f"wrong bound at step {number}"
        if kind == "P" and block_key(bound, block) <= limit:
            return f"not above at step {number}"
        if due:
            due.pop()
        else:
            left.remove(block)
        if kind == "O":
            due += reversed(children(block))
    return f"uncovered at step {len(steps) + 1}" if due or left else None


def verdict(data, judge):
    """The fault of the text of a certificate, or None with the keys that it names."""
    heard = judge.heard
    if len(data) > MOST_BYTES:
        return "too large", None
    try:
        found = read_text(data)
    except BadLine as bad:
        return str(bad), None
    if found.stations != heard.stations or found.numbers != head_of(heard):
        return "other window", None
    fault = fault_in_steps(judge, found.steps, limit_of(found.keys[1], heard.ceiling))
    if fault:
        return fault, None
    keys = sorted(block_key(bound, block) for kind, block, bound in found.steps if kind == "L")
    keys = [one for one in keys if one <= ceiling_key(heard.ceiling)]
    for named, true in zip(found.keys, keys[:2] + [None] * 2):
        if named != true:
            return f"wrong ends {told_key(true)}", None
    return None, found.keys


# Writing


def first_two(judge):
    """The keys of the first two admitted sequences, by the cost of each sequence."""
    heard, found = judge.heard, []
    for announced in (0, 1):
        for second in range(60 + announced):
            block = "Y", announced, second, heard.first, heard.end
            for minute in judge.walkable_in(block):
                if judge.is_legal(announced, second, minute):
                    cost = 0 if judge.silent else judge.cost(announced, second, minute)
                    if cost <= heard.ceiling:
                        found = sorted([*found, block_key(cost, ("M", announced, second, minute, minute + 1))])[:2]
                if judge.silent and len(found) == 2:
                    return found
    return found + [None] * (2 - len(found))


def step_line(kind, block, bound):
    return " ".join(map(str, (kind, *block, "-" if bound is None else bound)))


def steps_under(judge, limit):
    """The steps of the shortest walk: each block is opened or a leaf exactly where its key isn't above the limit."""
    due = items(judge.heard)[::-1]
    while due:
        block = due.pop()
        bound = judge.bound(block)
        if bound is None:
            kind = "E"
        elif block_key(bound, block) > limit:
            kind = "P"
        else:
            kind = "L" if block[0] == "M" else "O"
        if kind == "O":
            due += reversed(children(block))
        yield kind, block, bound


def text_of(judge, workers):
    """The text of the shortest certificate: all steps in the first part, the others empty."""
    heard, keys = judge.heard, first_two(judge)
    several = len(heard.stations) > 1
    yield f"tsbank certificate {2 if several else 1}"
    yield " ".join(["stations" if several else "station", *heard.stations])
    yield from (f"{word} {value}" for word, value in head_of(heard).items())
    yield from (f"{word} {told_key(value)}" for word, value in zip(("first", "second"), keys))
    yield "worker 0"
    yield from (step_line(*step) for step in steps_under(judge, limit_of(keys[1], heard.ceiling)))
    yield from (f"worker {part}" for part in range(1, workers))
    yield "end"

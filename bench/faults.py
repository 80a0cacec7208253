"""Ways to spoil the text of a certificate, and what docs/FORMATS.md says of each, where it can be said beforehand.

Here are those of bytes, numbers, grammar and window; `step_faults.py` has those of steps and keys.

Each fault takes the text, a judge of bounds and a stream of chances, and makes another text and the line that a checker
should print: `certified`, a refusal without its first word, or None where that isn't known beforehand. It makes nothing
where the text has no place for it. Texts have one part, `worker 0`, and are the shortest ones; of others, as of texts
that are spoiled already, what is said beforehand doesn't hold.
"""
from blocks import KEY_COSTS
from certificates import step_in

STEPS = 11
FAULTS = {}


def fault(make):
    FAULTS[make.__name__] = make
    return make


def joined(lines):
    return "\n".join(lines)


def steps_of(lines, kinds="OPEL", spans="YDHM"):
    """The places of the steps of some kinds and spans. The first step of all stands at STEPS."""
    return [n for n, line in enumerate(lines) if n >= STEPS and line[:1] in kinds and line[2:3] in spans and step_in(line)]


def picked(chance, many):
    return many[chance.below(len(many))]


def spoil(lines, at, *new):
    """The text with other lines in place of one."""
    return joined(lines[:at] + list(new) + lines[at + 1:])


def shape(at):
    return f"line {at + 1}: shape"


def uncovered(at):
    return f"uncovered at step {at - STEPS + 1}"


def field(line, place, value):
    words = line.split(" ")
    words[place] = str(value)
    return " ".join(words)


# Bytes


@fault
def cut_anywhere(text, judge, chance):
    at = chance.below(len(text))
    return text[:at], f"line {text[:at].count(chr(10)) + 1}: shape"


@fault
def carriage_return(text, judge, chance):
    lines = text.split("\n")
    at = chance.below(len(lines) - 1)
    return spoil(lines, at, lines[at] + "\r"), shape(at)


@fault
def something_behind_the_end(text, judge, chance):
    return text + picked(chance, ["\n", "x", "end\n", "\0", "worker 1\n"]), shape(text.count("\n"))


@fault
def odd_bytes(text, judge, chance):
    lines = text.split("\n")
    at = chance.below(len(lines) - 1)
    odd = picked(chance, ["\0", "\xff", "\xef\xbb\xbf", "\t", " ", "\xb2"])
    return spoil(lines, at, picked(chance, [odd + lines[at], lines[at] + odd])), shape(at)


@fault
def two_spaces(text, judge, chance):
    lines = text.split("\n")
    at = picked(chance, [n for n, line in enumerate(lines) if " " in line])
    return spoil(lines, at, lines[at].replace(" ", picked(chance, ["  ", "\t", ""]), 1)), shape(at)


@fault
def another_byte(text, judge, chance):
    at = chance.below(len(text))
    new = picked(chance, ["", chr(chance.below(256)), picked(chance, list("0123456789 -OPELYDHM\n"))])
    return text[:at] + new + text[at + 1:], None


# Numbers


def misspelt(value):
    """What is no number that may stand in place of this one."""
    return ["00", "0" + value, "+1", "-0", "-1", "1" * 21, str(2 ** 64 + 1), "1.0", "0x1", "", "--", "1-", "\xb2", "1_0", "1e1"]


def with_numbers_misspelt(text):
    """For each number of the head and of the first step of each kind each way to misspell it."""
    lines = text.split("\n")
    first = [steps_of(lines, kind)[0] for kind in "OPEL" if steps_of(lines, kind)]
    for at in list(range(2, 10)) + first:
        for place in range(2, 7) if at >= STEPS else (1,):
            for new in misspelt(lines[at].split(" ")[place]):
                yield spoil(lines, at, field(lines[at], place, new)), shape(at)


@fault
def no_number(text, judge, chance):
    lines = text.split("\n")
    at = picked(chance, steps_of(lines) + list(range(2, 10)))
    place = 2 + chance.below(5) if at >= STEPS else 1
    new = picked(chance, misspelt(lines[at].split(" ")[place]))
    return spoil(lines, at, field(lines[at], place, new)), shape(at)


@fault
def one_beyond(text, judge, chance):
    lines = text.split("\n")
    at = picked(chance, steps_of(lines, "OPL"))
    _, block, bound = step_in(lines[at])
    place, new = picked(chance, [
        (2, 2), (3, 61), (4, block[4]), (5, 52_596_001), (5, block[3]), (6, 1_920_000_001), (3, 2 ** 32 + block[2]),
        (4, 2 ** 32 + block[3]), (5, 2 ** 32 + block[4]), (6, 2 ** 32 + bound), (6, 2 ** 64 - 1), (3, 256 + block[2]),
    ])
    return spoil(lines, at, field(lines[at], place, new)), shape(at)


@fault
def head_beyond(text, judge, chance):
    lines = text.split("\n")
    at, new = picked(chance, [
        (2, 10 ** 12), (3, 1000), (4, 59), (4, 1201), (5, 52_596_000), (5, judge.heard.end), (6, 52_596_001),
        (6, judge.heard.first), (7, 1_920_000_001), (8, 6_416_712_000), (9, KEY_COSTS - 1), (8, 1_920_000_001 * KEY_COSTS),
        (9, 2 ** 64 - 1),
    ])
    # With `from` as great as `to` the line `to` is the bad one.
    bad = 6 if at == 5 and new == judge.heard.end and new < 52_596_000 else at
    return spoil(lines, at, field(lines[at], 1, new)), shape(bad)


@fault
def head_at_its_ends(text, judge, chance):
    lines = text.split("\n")
    at, new = picked(chance, [
        (2, 999_999_999_999), (2, 0), (3, 999), (3, 0), (4, 60), (4, 1200), (5, 0), (6, 52_596_000), (7, 0), (7, 1_920_000_000),
    ])
    changed = field(lines[at], 1, new)
    return None if changed == lines[at] else (spoil(lines, at, changed), "other window")


@fault
def step_at_its_ends(text, judge, chance):
    """A field of a step is the least or the greatest that it may be: the text is in order, the step isn't."""
    lines = text.split("\n")
    at = picked(chance, steps_of(lines))
    kind, block, bound = step_in(lines[at])
    place, new = picked(chance, [
        (4, 0), (4, block[4] - 1), (5, block[3] + 1), (5, 52_596_000),
        *[(3, 0), (3, 60)] * (block[0] != "Y"), *[(6, 0), (6, 1_920_000_000)] * (kind != "E"),
    ])
    changed = field(lines[at], place, new)
    if changed == lines[at]:
        return None
    return spoil(lines, at, changed), f"wrong bound at step {at - STEPS + 1}" if place == 6 else uncovered(at)


@fault
def key_at_its_end(text, judge, chance):
    lines = text.split("\n")
    at, new = 8 + chance.below(2), picked(chance, [6_416_711_999, 1_920_000_000 * KEY_COSTS + 6_416_711_999])
    return spoil(lines, at, field(lines[at], 1, new)), None


# Grammar


@fault
def odd_kind(text, judge, chance):
    lines = text.split("\n")
    made = [(n, "O" + lines[n][1:]) for n in steps_of(lines, "PL", "M")]
    made += [(n, "L" + lines[n][1:]) for n in steps_of(lines, "OP", "YDH")]
    made += [(n, "E" + lines[n][1:]) for n in steps_of(lines, "OPL")] + [(n, "P" + lines[n][1:]) for n in steps_of(lines, "E")]
    made += [(n, lines[n].rsplit(" ", 1)[0] + " -") for n in steps_of(lines, "OPL")]
    made += [(n, lines[n][0].lower() + lines[n][1:]) for n in steps_of(lines)]
    at, new = picked(chance, made)
    return spoil(lines, at, new), shape(at)


@fault
def head_in_disorder(text, judge, chance):
    lines = text.split("\n")
    at = chance.below(10)
    return picked(chance, [
        (spoil(lines, at), shape(at)),
        (joined(lines[:at] + [lines[at + 1], lines[at]] + lines[at + 2:]), shape(at)),
        (spoil(lines, at, lines[at], lines[at]), shape(at + 1)),
    ])


@fault
def odd_version(text, judge, chance):
    lines, names = text.split("\n"), judge.heard.stations
    several = len(names) > 1
    first, second = picked(chance, [
        (lines[0], " ".join(["stations", names[0]] if several else ["stations", *names])),
        (lines[0], " ".join(["stations" if several else "station", *names, names[-1]])),
        (lines[0], "stations jjy dcf77"), (lines[0], "station bpc"), (lines[0], "station"),
        (f"tsbank certificate {1 if several else 2}", lines[1]),
    ])
    return joined([first, second] + lines[2:]), shape(1)


@fault
def odd_part(text, judge, chance):
    lines = text.split("\n")
    at = STEPS + chance.below(len(lines) - STEPS - 1)
    return picked(chance, [
        (spoil(lines, 10, "worker 1"), shape(10)), (spoil(lines, 10, "worker 00"), shape(10)), (spoil(lines, 10), shape(10)),
        (spoil(lines, at, "worker 0", lines[at]), shape(at)), (spoil(lines, at, "worker 2", lines[at]), shape(at)),
        (spoil(lines, at, "worker 01", lines[at]), shape(at)), (joined(lines[:10] + ["end", ""]), shape(10)),
    ])


@fault
def nine_parts(text, judge, chance):
    lines = text.split("\n")
    at = STEPS + chance.below(len(lines) - STEPS - 1)
    return spoil(lines, at, *(f"worker {part}" for part in range(1, 9)), lines[at]), shape(at + 7)


@fault
def more_parts(text, judge, chance):
    lines = text.split("\n")
    places = sorted(STEPS + chance.below(len(lines) - STEPS - 1) for _ in range(1 + chance.below(7)))
    for part, at in reversed(list(enumerate(places, 1))):
        lines.insert(at, f"worker {part}")
    return joined(lines), "certified"


# The window


@fault
def window_by_one(text, judge, chance):
    lines, heard = text.split("\n"), judge.heard
    at = picked(chance, range(2, 8))
    least, end = {2: (0, 10 ** 12), 3: (0, 1000), 4: (60, 1201), 5: (0, heard.end), 6: (heard.first + 1, 52_596_001),
                  7: (0, 1_920_000_001)}[at]
    value = int(lines[at].split(" ")[1])
    new = picked(chance, [one for one in (value - 1, value + 1) if least <= one < end] or [None])
    return None if new is None else (spoil(lines, at, field(lines[at], 1, new)), "other window")


@fault
def other_stations(text, judge, chance):
    lines, names = text.split("\n"), judge.heard.stations
    version, new = picked(chance, [
        (1, "station dcf77"), (1, "station wwvb"), (2, "stations dcf77 jjy"), (2, "stations msf wwvb"),
        (2, "stations dcf77 msf wwvb jjy"),
    ])
    if new == lines[1]:
        return None
    return joined([f"tsbank certificate {version}", new] + lines[2:]), "other window"


@fault
def other_window_and_more(text, judge, chance):
    lines = text.split("\n")
    at = picked(chance, steps_of(lines, "OPL"))
    _, _, bound = step_in(lines[at])
    lines[7] = f"ceiling {judge.heard.ceiling - 1 if judge.heard.ceiling else 1}"
    lines[at] = field(lines[at], 6, bound - 1 if bound else 1)
    if chance.below(2):
        return joined(lines), "other window"
    return joined(lines[:-2] + ["end "] + lines[-1:]), shape(len(lines) - 2)

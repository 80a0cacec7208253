"""More ways to spoil the text of a certificate, beside faults.py: what is covered, needless steps, bounds, limits, keys."""
from blocks import DUTS, KEY_COSTS, block_key, children
from certificates import limit_of, step_in, step_line
from faults import STEPS, fault, field, joined, picked, shape, spoil, steps_of, uncovered

# What is covered


def last_of(lines):
    return steps_of(lines)[-1]


@fault
def left_out(text, judge, chance):
    lines = text.split("\n")
    at = picked(chance, steps_of(lines))
    single = lines[at][2] == "Y" and lines[at][0] != "O"
    return spoil(lines, at), uncovered(last_of(lines) if single else at)


@fault
def twice(text, judge, chance):
    lines = text.split("\n")
    at = picked(chance, steps_of(lines))
    return spoil(lines, at, lines[at], lines[at]), uncovered(at + 1)


@fault
def twice_in_different_parts(text, judge, chance):
    lines = text.split("\n")
    at = picked(chance, steps_of(lines, "PE", "Y") or [0])
    again = lines[:-2] + ["worker 1", lines[at]] + lines[-2:]
    return (joined(again), uncovered(last_of(lines) + 1)) if at else None


@fault
def exchanged(text, judge, chance):
    lines = text.split("\n")
    at = picked(chance, steps_of(lines)[:-1])
    one, other = lines[at:at + 2]
    items = one[2] == other[2] == "Y" and one[0] != "O"
    # The first of an item's own walk isn't exchanged with what stands before.
    said = "certified" if items and other[0] != "O" else uncovered(at) if one[2] != "Y" and other[2] != "Y" else None
    return joined(lines[:at] + [other, one] + lines[at + 2:]), said


@fault
def cut_elsewhere(text, judge, chance):
    lines = text.split("\n")
    at = picked(chance, steps_of(lines))
    _, block, _ = step_in(lines[at])
    place, new = picked(chance, [(5, block[4] + 1), (4, block[3] - 1), (5, block[4] - 1), (4, block[3] + 1)])
    changed = field(lines[at], place, new)
    return spoil(lines, at, changed), uncovered(at) if step_in(changed) else shape(at)


@fault
def other_span(text, judge, chance):
    lines = text.split("\n")
    at = picked(chance, steps_of(lines, "OPE", "YDH"))
    new = picked(chance, [span for span in "YDH" + "M" * (lines[at][0] != "O") if span != lines[at][2]])
    return spoil(lines, at, field(lines[at], 1, new)), uncovered(at)


@fault
def other_second(text, judge, chance):
    lines = text.split("\n")
    at = picked(chance, steps_of(lines))
    place, new = picked(chance, [(2, 1 - int(lines[at].split(" ")[2])), (3, chance.below(61))])
    changed = field(lines[at], place, new)
    return spoil(lines, at, changed), "certified" if changed == lines[at] else uncovered(at) if lines[at][2] != "Y" else None


@fault
def a_step_too_many(text, judge, chance):
    lines = text.split("\n")
    more = picked(chance, [lines[picked(chance, steps_of(lines))], "P M 0 0 0 1 0", "E Y 0 60 0 1 -"])
    return joined(lines[:-2] + [more] + lines[-2:]), uncovered(last_of(lines) + 1)


@fault
def ends_early(text, judge, chance):
    lines = text.split("\n")
    at = picked(chance, steps_of(lines))
    return joined(lines[:at] + lines[-2:]), uncovered(at)


@fault
def items_in_another_order(text, judge, chance):
    lines = text.split("\n")
    walks = []
    for line in lines[STEPS:-2]:
        if line[2] == "Y":
            walks.append([])
        walks[-1].append(line)
    order = sorted(walks, key=lambda _: chance.random()) if chance.below(2) else walks[::-1]
    return joined(lines[:STEPS] + [line for walk in order for line in walk] + lines[-2:]), "certified"


# Needless lines


def in_vain(lines, at, judge, leaves):
    """The lines of a block that is opened down to its minutes or one level, its minutes leaves or pruned."""
    kind, block, bound = step_in(lines[at])
    made = [step_line("O", block, bound)]
    for child in children(block):
        bound = judge.bound(child)
        line = step_line("E" if bound is None else "L" if leaves and child[0] == "M" else "P", child, bound)
        made += in_vain([line], 0, judge, leaves) if leaves and line[0] == "P" and child[0] in "DH" else [line]
    return made


@fault
def opened_in_vain(text, judge, chance):
    lines = text.split("\n")
    at = picked(chance, steps_of(lines, "P", "YDH") or [0])
    return (spoil(lines, at, *in_vain(lines, at, judge, False)), "certified") if at else None


@fault
def a_child_short(text, judge, chance):
    lines = text.split("\n")
    at = picked(chance, steps_of(lines, "P", "YDH") or [0])
    if not at:
        return None
    made = in_vain(lines, at, judge, False)
    short = 1 + chance.below(len(made) - 1)
    return spoil(lines, at, *made[:short], *made[short + 1:]), uncovered(at + short)


@fault
def leaves_above_the_limit(text, judge, chance):
    lines = text.split("\n")
    at = picked(chance, steps_of(lines, "P", "H") or steps_of(lines, "P", "YD") or [0])
    return (spoil(lines, at, *in_vain(lines, at, judge, True)), "certified") if at else None


@fault
def a_leaf_above_the_limit(text, judge, chance):
    lines = text.split("\n")
    at = picked(chance, steps_of(lines, "P", "M") or [0])
    return (spoil(lines, at, "L" + lines[at][1:]), "certified") if at else None


@fault
def a_leaf_above_the_ceiling(text, judge, chance):
    lines = text.split("\n")
    dear = [n for n in steps_of(lines, "P", "M") if step_in(lines[n])[2] > judge.heard.ceiling]
    at = picked(chance, dear or [0])
    return (spoil(lines, at, "L" + lines[at][1:]), "certified") if at else None


# Bounds


@fault
def bound_by_one(text, judge, chance):
    lines = text.split("\n")
    at = picked(chance, steps_of(lines, "OPL"))
    bound = step_in(lines[at])[2]
    new = bound + 1 if bound == 0 or bound < 1_920_000_000 and chance.below(2) else bound - 1
    return spoil(lines, at, field(lines[at], 6, new)), f"wrong bound at step {at - STEPS + 1}"


@fault
def bound_where_none_is(text, judge, chance):
    lines = text.split("\n")
    at = picked(chance, steps_of(lines))
    line = lines[at]
    if line[0] == "E":
        made = field(("P" if line[2] == "M" or chance.below(2) else "O") + line[1:], 6, picked(chance, [0, 1_920_000_000]))
    else:
        made = field("E" + line[1:], 6, "-")
    return spoil(lines, at, made), f"wrong bound at step {at - STEPS + 1}"


@fault
def bound_of_another(text, judge, chance):
    lines = text.split("\n")
    many = steps_of(lines, "OPL")
    at, other = picked(chance, many), picked(chance, many)
    new = step_in(lines[other])[2]
    same = new == step_in(lines[at])[2]
    return spoil(lines, at, field(lines[at], 6, new)), "certified" if same else f"wrong bound at step {at - STEPS + 1}"


@fault
def bound_of_the_twin(text, judge, chance):
    """The bound of the same block with the other announcement."""
    lines = text.split("\n")
    at = picked(chance, steps_of(lines, "OPL"))
    _, (span, announced, *rest), bound = step_in(lines[at])
    new = judge.bound((span, 1 - announced, *rest))
    if new is None or new == bound:
        return None
    return spoil(lines, at, field(lines[at], 6, new)), f"wrong bound at step {at - STEPS + 1}"


@fault
def bound_of_the_neighbour(text, judge, chance):
    """The bound of the block behind it in the same list."""
    lines = text.split("\n")
    at = picked(chance, [n for n in steps_of(lines, "OPL")[:-1] if (step_in(lines[n + 1]) or [None] * 3)[2] is not None])
    new = step_in(lines[at + 1])[2]
    if new == step_in(lines[at])[2]:
        return None
    return spoil(lines, at, field(lines[at], 6, new)), f"wrong bound at step {at - STEPS + 1}"


@fault
def bound_without_dut1(text, judge, chance):
    """A minute's bound as if each second of DUT1 stood by itself."""
    lines = text.split("\n")
    at = picked(chance, steps_of(lines, "PL", "M") or [0])
    if not at or not set(judge.heard.stations) & set(DUTS):
        return None
    _, (_, *sequence, _), bound = step_in(lines[at])
    free = sum(judge.cost_of_walk(station, judge.walk(station, *sequence)) for station in judge.heard.stations)
    return None if free == bound else (spoil(lines, at, field(lines[at], 6, free)), f"wrong bound at step {at - STEPS + 1}")


# Limits and named keys


def walk_end(lines, at):
    """The place behind the walk of the step at a place."""
    span = "YDHM".index(lines[at][2])
    at += 1
    while step_in(lines[at]) and "YDHM".index(lines[at][2]) > span:
        at += 1
    return at


@fault
def pruned_within_the_limit(text, judge, chance):
    lines = text.split("\n")
    at = picked(chance, steps_of(lines, "OL") or [0])
    if not at:
        return None
    return joined(lines[:at] + ["P" + lines[at][1:]] + lines[walk_end(lines, at):]), f"not above at step {at - STEPS + 1}"


@fault
def pruned_at_the_limit(text, judge, chance):
    """The leaf whose key the certificate names second is passed over: its key is the limit, and not above it."""
    lines = text.split("\n")
    limit = limit_of(keys_of(lines)[1], judge.heard.ceiling)
    steps = ((n, step_in(lines[n])) for n in steps_of(lines, "L"))
    at = next((n for n, (_, block, bound) in steps if block_key(bound, block) == limit), 0)
    return (spoil(lines, at, "P" + lines[at][1:]), f"not above at step {at - STEPS + 1}") if at else None


def keys_of(lines):
    return [None if line.endswith(" -") else int(line.split(" ")[1]) for line in lines[8:10]]


def with_keys(lines, first, second):
    told = ["-" if key is None else str(key) for key in (first, second)]
    return joined(lines[:8] + [f"first {told[0]}", f"second {told[1]}"] + lines[10:])


@fault
def other_second_key(text, judge, chance):
    """A lower second key makes the ends wrong. A higher one may come to lie behind a pruned block."""
    lines = text.split("\n")
    first, second = keys_of(lines)
    if second is None:
        return None
    new = picked(chance, [0, first, second - 1, second + 1, second + 60, second + KEY_COSTS, None])
    if new is not None and (new % KEY_COSTS >= 6_416_712_000 or new == second):
        return None
    limit = limit_of(new, judge.heard.ceiling)
    steps = [(n, step_in(lines[n])) for n in steps_of(lines, "P")]
    below = [n for n, (_, block, bound) in steps if block_key(bound, block) <= limit]
    return with_keys(lines, first, new), f"not above at step {below[0] - STEPS + 1}" if below else f"wrong ends {second}"


@fault
def other_first_key(text, judge, chance):
    lines = text.split("\n")
    first, second = keys_of(lines)
    new = picked(chance, [None, 0, (first or 0) + 1, second])
    true = "-" if first is None else first
    return None if new == first else (with_keys(lines, new, second), f"wrong ends {true}")


@fault
def keys_exchanged(text, judge, chance):
    lines = text.split("\n")
    first, second = keys_of(lines)
    return None if first is None else (with_keys(lines, second, first), f"wrong ends {first}")


@fault
def all_pruned(text, judge, chance):
    """Tiny keys make all pruned items sound; no leaf stands."""
    lines = text.split("\n")
    items = [line if line[0] == "E" else "P" + line[1:] for line in lines[STEPS:-2] if line[2] == "Y"]
    if any(line[0] == "P" and step_in(line)[2] == 0 for line in items) or keys_of(lines)[0] is None:
        return None
    return with_keys(lines[:STEPS] + items + lines[-2:], 0, 0), "wrong ends -"


# A program reads a text in pieces of so many bytes.
PIECE = 65_536


@fault
def one_field_at_a_border(text, judge, chance):
    """A field changes of a step in which a piece ends."""
    border = PIECE * (1 + chance.below(len(text) // PIECE)) if len(text) > PIECE else 0
    at = text[:border].count("\n") if border else 0
    return changed_field(text.split("\n"), at, chance) if at in steps_of(text.split("\n")) else None


@fault
def one_field(text, judge, chance):
    """A step's field becomes another that is well formed."""
    lines = text.split("\n")
    return changed_field(lines, picked(chance, steps_of(lines)), chance)


def changed_field(lines, at, chance):
    kind, block, bound = step_in(lines[at])
    place, new = picked(chance, [
        (0, picked(chance, "OPEL")), (1, picked(chance, "YDHM")), (2, 1 - block[1]), (3, chance.below(61)),
        (4, block[3] + 1 - 2 * chance.below(2)), (5, block[4] + 1 - 2 * chance.below(2)),
        (6, (bound or 0) + picked(chance, [-100, -2, -1, 1, 2, 100])), (6, picked(chance, [0, "-", 1_920_000_000])),
    ])
    return spoil(lines, at, field(lines[at], place, new)), None

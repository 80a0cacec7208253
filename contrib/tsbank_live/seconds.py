"""What a receiver heard second by second: the level of each tenth, and the symbol that fits best."""
from collections import namedtuple

# The tenths in which a station's carrier is low, by symbol.
LOW = {
    "dcf77": {"0": (0,), "1": (0, 1), "-": ()},
    "msf": {"0": (0,), "1": (0, 2), "2": (0, 1), "3": (0, 1, 2), "M": (0, 1, 2, 3, 4)},
    "wwvb": {"0": (0, 1), "1": (0, 1, 2, 3, 4), "M": (0, 1, 2, 3, 4, 5, 6, 7)},
    "jjy": {"0": (8, 9), "1": (5, 6, 7, 8, 9), "M": (2, 3, 4, 5, 6, 7, 8, 9)},
}
NEAR = 50                  # milliseconds from the phase within which an edge bears it out

# The milliseconds of each tenth that are low, or None where it is unknown; the symbol that costs least; and what it costs.
Heard = namedtuple("Heard", "tenths symbol cost")


def phase_of(records, station):
    """The millisecond at which seconds begin, 0 to 999: that near to which most edges lie with which one begins."""
    kind = "LH" if station == "jjy" else "HL"
    edges = [at % 1000 for (_, before), (at, level) in zip(records, records[1:]) if before + level == kind]

    def borne_out(phase):
        return sum(max(0, NEAR - abs((edge - phase + 500) % 1000 - 500)) for edge in edges)
    return max(edges, key=borne_out, default=None)


def tenths(records, begin):
    """The low milliseconds of the ten tenths from a millisecond on, or None of one of which some isn't known."""
    low, known = [0] * 10, [0] * 10
    for (at, level), (after, _) in zip(records, records[1:]):
        for tenth in range(10):
            start = begin + 100 * tenth
            shared = min(after, start + 100) - max(at, start)
            if shared > 0 and level != "X":
                known[tenth] += shared
                low[tenth] += shared * (level == "L")
    return [one if whole == 100 else None for one, whole in zip(low, known)]


def heard(records, begin, station):
    """A second: by the default costs, a millisecond each in which something else was heard than would have been sent."""
    found = tenths(records, begin)

    def cost(symbol):
        low = LOW[station][symbol]
        return sum(100 - one if tenth in low else one for tenth, one in enumerate(found) if one is not None)
    symbol = min(LOW[station], key=cost)
    return Heard(found, symbol if any(one is not None for one in found) else "?", cost(symbol))

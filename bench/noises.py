"""The twelve noises by which weak signals are measured: what a receiver's log of a station has in each of them.

Chance draws the minute, from the whole century, the second, how the seconds lie to the log's, DUT1, and what others send in
DCF77's first seconds. No leap second is announced. By `radio.py`, which shares nothing with the program.
"""
import math
from datetime import datetime, timedelta

import radio

CENTURY = datetime(2000, 1, 1)
DAYS = 36_525
# How strong the carrier is where it is low, and the amplitude at which a receiver changes its mind: midway to 1.
WEAK = {"dcf77": 0.15, "msf": 0.0, "wwvb": 0.14, "jjy": 0.1}
# The envelope is heard a hundred times a second, each time with noise of its own.
HEARD_EACH = 10


def by_the_second(kind, amount):
    return lambda station, sent, chance: radio.moved(radio.changes(kind(station, sent, chance, amount)), chance, 10)


def destroyed(station, sent, chance, percent):
    return radio.destroyed(sent, chance, percent)


def bursts(station, sent, chance, percent):
    """Destroyed seconds that come together: runs of ten in the mean, and so many percent of all."""
    ends, begins = 1 / 10, percent / (100 - percent) / 10
    bad, heard = chance.random() < percent / 100, []
    for second in sent:
        heard.append("".join("HL"[chance.below(2)] for _ in range(10)) if bad else second)
        bad = chance.random() >= ends if bad else chance.random() < begins
    return heard


def too_long(by):
    """Every low ends so many milliseconds later, and 5 % of the seconds are disturbed."""
    def heard(station, sent, chance):
        return radio.stretched(by_the_second(radio.disturbed, 5)(station, sent, chance), by)
    return heard


def gauss(chance):
    return math.sqrt(-2 * math.log(1 - chance.random())) * math.cos(2 * math.pi * chance.random())


def edges(sigma):
    """Each edge comes early or late, with so many milliseconds as its deviation."""
    def heard(station, sent, chance):
        records = radio.changes(sent)
        return records[:1] + in_order([(at + round(sigma * gauss(chance)), level) for at, level in records[1:]])
    return heard


def in_order(records):
    """Where an edge overtakes the one before, both are gone."""
    kept = []
    for record in records:
        if kept and record[0] <= kept[-1][0]:
            kept.pop()
        else:
            kept.append(record)
    return kept


def short_pulses(records, seconds, chance, each_second):
    """So many times a second, in the mean, the level is the other one for 20 to 60 ms."""
    turns, at = [], 0
    while at < 1000 * seconds:
        at += round(-1000 / each_second * math.log(1 - chance.random())) + 1
        length = 20 + chance.below(41)
        turns += [at, at + length]
        at += length
    changes, level, turned, was, found = iter(sorted(turns)), None, False, None, []
    events = sorted([(at, 0, which) for at, which in records] + [(at, 1, None) for at in changes])
    for at, is_turn, which in events:
        if is_turn:
            turned = not turned
        else:
            level = which
        now = level if level is None or not turned else "HL"[level == "H"]
        if now and now != was:
            if found and found[-1][0] == at:
                found.pop()
            found.append((at, now))
            was = now
    return found


def pulses(each_second):
    def heard(station, sent, chance):
        return short_pulses(radio.moved(radio.changes(sent), chance, 10), len(sent), chance, each_second)
    return heard


def mix(station, sent, chance):
    """10 % of the seconds disturbed, 10 % destroyed, a short pulse a second, and edges that wander."""
    spoiled = radio.destroyed(radio.disturbed(station, sent, chance, 10), chance, 10)
    records = radio.changes(spoiled)
    records = records[:1] + in_order([(at + round(10 * gauss(chance)), level) for at, level in records[1:]])
    return short_pulses(records, len(sent), chance, 1)


def amplitude(decibels):
    """The strong carrier is so many decibels above the noise, whose envelope is compared with the middle of both levels."""
    def heard(station, sent, chance):
        weak, deviation = WEAK[station], math.sqrt(10 ** (-decibels / 10) / 2)
        middle, records, was = (1 + weak) / 2, [], None
        for at in range(0, 1000 * len(sent), HEARD_EACH):
            carrier = 1 if sent[at // 1000][at % 1000 // 100] == "H" else weak
            size = deviation * math.sqrt(-2 * math.log(1 - chance.random()))
            angle = 2 * math.pi * chance.random()
            level = "H" if math.hypot(carrier + size * math.cos(angle), size * math.sin(angle)) > middle else "L"
            if level != was:
                records.append((at, level))
                was = level
        return records
    return heard


NOISES = {
    "20 % destroyed": by_the_second(destroyed, 20),
    "30 % destroyed": by_the_second(destroyed, 30),
    "20 % disturbed": by_the_second(radio.disturbed, 20),
    "30 % disturbed": by_the_second(radio.disturbed, 30),
    "bursts, 25 % bad": by_the_second(bursts, 25),
    "50 ms too long, 5 % disturbed": too_long(50),
    "80 ms too long, 5 % disturbed": too_long(80),
    "a mix": mix,
    "4 short pulses a second": pulses(4),
    "edges, sigma 40 ms": edges(40),
    "amplitude, 5 dB": amplitude(5),
    "amplitude, 7 dB": amplitude(7),
}
# Those that spoil whole seconds.
BY_THE_SECOND = tuple(NOISES)[:5]


def free(station, minute, second, chance, tenths):
    """Writes what the minute doesn't tell: DUT1, and what others send."""
    if station == "dcf77":
        for place in range(1, 16):
            second[place] = "01"[chance.below(2)]
    elif station == "msf":
        for place in range(abs(tenths)):
            second[(1 if tenths > 0 else 9) + place] = "1"
    elif station == "wwvb":
        second[36:39] = "101" if tenths >= 0 else "010"
        radio.written(second, (40, 41, 42, 43), abs(tenths), (8, 4, 2, 1))


def sent(station, begin, seconds, chance):
    """The symbols of so many seconds."""
    tenths, made, found = chance.below(17) - 8, {}, []
    for slot in range(seconds):
        now = begin + timedelta(seconds=slot)
        minute = now.replace(second=0)
        if minute not in made:
            made[minute] = radio.TELEGRAMS[station](minute)
            free(station, minute, made[minute], chance, tenths)
        found.append(made[minute][now.second])
    return found


def begins(chance):
    """Some second of the century."""
    return CENTURY + timedelta(seconds=chance.below(86_400 * DAYS - 10_000))


def log(noise, station, begin, seconds, chance):
    """What is heard of so many seconds, and the time of the log's millisecond 0."""
    ahead = 1 + chance.below(999)
    heard = NOISES[noise](station, radio.waves(station, sent(station, begin, seconds + 3, chance)), chance)
    moved = [(at - ahead, level) for at, level in heard]
    first = max((number for number, (at, _) in enumerate(moved) if at <= 0), default=0)
    records = [(0, moved[first][1])] + [record for record in moved[first + 1:] if record[0] < 1000 * (seconds + 2)]
    return radio.log_of(records, seconds + 2), begin + timedelta(milliseconds=ahead)

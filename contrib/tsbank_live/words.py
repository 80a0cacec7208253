"""The command line of live, and its programs."""
import argparse
import os
import shutil
from pathlib import Path

from .bank import bound_of, receivers_of

HERE = Path(__file__).resolve().parent.parent
MARGIN = 100               # the least margin where a second has no bound


def find_program(name):
    """A program beside these scripts, in PATH, or in the folder build of this clone; None where it is nowhere."""
    beside, built = HERE / name, HERE.parent / "build" / name
    if os.access(beside, os.X_OK) and beside.is_file():
        return str(beside)
    return shutil.which(name) or (str(built) if os.access(built, os.X_OK) else None)


def add_guard(parser):
    """The options that live and watch share: the window and the guard."""
    parser.add_argument("--seconds", type=int, default=300, help="of a window: 300")
    parser.add_argument("--step", type=int, default=60, help="seconds from window to window: 60")
    parser.add_argument("--lag", type=float, default=3, help="seconds by which logs are behind: 3")
    parser.add_argument("--zero", type=int, help="the second of Unix time that is millisecond 0, of logs that don't say it")
    parser.add_argument("--cost", type=float, default=150, help="the most that a window costs a second: 150 for one receiver")
    parser.add_argument("--margin", type=int, help="the least margin: half of what a second costs a receiver at the most, or 100")
    parser.add_argument("--agree", type=float, default=1, help="seconds within which two windows agree: 1")
    parser.add_argument("--apart", type=float, default=3, help="milliseconds by which receivers may hear seconds begin apart: 3")
    parser.add_argument("--days", type=float, help="the most days from the machine's date")
    parser.add_argument("--tsbank", help="the program: beside this one, in PATH, or in build/")
    parser.add_argument("--folder", help="where the cuts are written: a new folder, which is removed")


def live_words(words, usage):
    parser = argparse.ArgumentParser(usage=usage, allow_abbrev=False)
    parser.add_argument("config", metavar="CONFIG", type=os.path.abspath)
    parser.add_argument("logs", metavar="LOG", nargs="+")
    parser.add_argument("--sock", metavar="PATH", help="chrony's socket")
    parser.add_argument("--shm", metavar="UNIT", type=int, help="NTP's shared memory")
    parser.add_argument("--nmea", metavar="TO", help="udp:HOST:PORT, a file or a serial line")
    parser.add_argument("--rmc", action="store_true", help="RMC beside ZDA")
    parser.add_argument("--once", action="store_true", help="one window")
    parser.add_argument("--replay", action="store_true", help="logs at rest")
    parser.add_argument("--state", metavar="FILE", help="what the clocks did, kept from run to run")
    parser.add_argument("--status", metavar="FILE", help="a line of JSON a window, and all of them in FILE.log")
    parser.add_argument("--metrics", metavar="FILE", help="figures for node_exporter's textfile collector")
    add_guard(parser)
    asked = parser.parse_args(words)
    if asked.once and asked.nmea:
        parser.error("--once ends at once, and --nmea sends a sentence each second")
    if not 60 <= asked.seconds <= 1200 or asked.step < 1:
        parser.error("--seconds is from 60 to 1200, and --step from 1 on")
    return settled(asked)


def least_margin(config):
    """Half of what a second costs a receiver at the most, by the greatest of them; where one has no bound 100."""
    try:
        bounds = [bound_of(one.alone) for one in receivers_of(Path(config).read_text())]
    except (OSError, UnicodeDecodeError):
        return MARGIN      # tsbank refuses it
    return max(bounds) // 2 if bounds and None not in bounds else MARGIN


def settled(asked):
    if asked.margin is None:
        asked.margin = least_margin(asked.config)
    asked.tsbank = asked.tsbank or find_program("tsbank") or "tsbank"
    if "/" in asked.tsbank:
        asked.tsbank = os.path.abspath(asked.tsbank)
    if asked.folder:
        asked.folder = os.path.abspath(asked.folder)
    return asked

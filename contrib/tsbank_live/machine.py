"""The machine on which live runs: its clocks, its files, its programs. The simulator of bench/clocks hands in another."""
import ctypes
import os
import socket
import subprocess
import threading
import time
from collections import namedtuple

from . import Refused

# All clocks at one moment, in nanoseconds: the real time clock, which is set and slewed; the monotonic one, which is slewed
# alike and never set; the quartz as it runs (raw); and the time since boot, which goes on while the machine sleeps.
Clocks = namedtuple("Clocks", "real mono raw boot")

READS = 5                  # of which the tightest counts
PATIENCE = 120             # seconds that a program may take
BOOT_ID = "/proc/sys/kernel/random/boot_id"


class Machine:
    """The machine itself."""

    def clocks(self):
        """All clocks, read between two reads of the monotonic one. Of several such reads the tightest counts."""
        best = None
        for _ in range(READS):
            before = time.clock_gettime_ns(time.CLOCK_MONOTONIC)
            real = time.clock_gettime_ns(time.CLOCK_REALTIME)
            raw = time.clock_gettime_ns(time.CLOCK_MONOTONIC_RAW)
            boot = time.clock_gettime_ns(time.CLOCK_BOOTTIME)
            after = time.clock_gettime_ns(time.CLOCK_MONOTONIC)
            if best is None or after - before < best[0]:
                best = after - before, Clocks(real, (before + after) // 2, raw, boot)
        return best[1]

    def boot(self):
        """The identity of this boot of the machine."""
        with open(BOOT_ID) as file:
            return file.read().strip()

    def sleep(self, seconds):
        time.sleep(max(0, seconds))

    def stat(self, path):
        """Which file has this name now, and its size."""
        about = os.stat(path)
        return (about.st_dev, about.st_ino), about.st_size

    def read(self, path, position, most=-1):
        with open(path, "rb") as file:
            file.seek(position)
            return file.read(most)

    def run(self, words, folder, meanwhile):
        """Runs a program and does something else each second while it runs. Answers its status and what it wrote to standard
        output and standard error; the status is None where it took too long."""
        with subprocess.Popen(words, cwd=folder, stdin=subprocess.DEVNULL, stdout=subprocess.PIPE, stderr=subprocess.PIPE) as run:
            try:
                for _ in range(PATIENCE):
                    try:
                        out, err = run.communicate(timeout=1)
                        return run.returncode, out.decode("utf-8", "replace"), err.decode("utf-8", "replace")
                    except subprocess.TimeoutExpired:
                        meanwhile()
                return None, "", ""
            finally:
                run.kill()

    def send(self, path, data):
        """Sends a datagram to a socket of this machine."""
        with socket.socket(socket.AF_UNIX, socket.SOCK_DGRAM) as made:
            made.sendto(data, path)

    def shared(self, unit, kind):
        """The segment of a unit of NTP's shared memory: 0 and 1 are root's alone, as ntpd makes them."""
        library = ctypes.CDLL(None, use_errno=True)
        library.shmat.restype = ctypes.c_void_p
        library.shmat.argtypes = (ctypes.c_int, ctypes.c_void_p, ctypes.c_int)
        size, rights = ctypes.c_size_t(ctypes.sizeof(kind)), 0o1000 | (0o600 if unit < 2 else 0o666)
        number = library.shmget(0x4E545030 + unit, size, rights)
        address = library.shmat(number, None, 0) if number >= 0 else ctypes.c_void_p(-1).value
        if address == ctypes.c_void_p(-1).value:
            raise Refused(f"shared memory {unit}: {os.strerror(ctypes.get_errno())}")
        return kind.from_address(address)

    def outlet(self, to):
        """A function that sends bytes to udp:HOST:PORT, or to a file or a serial line."""
        if not to.startswith("udp:"):
            number = os.open(to, os.O_WRONLY | os.O_APPEND | os.O_CREAT | os.O_NOCTTY, 0o644)
            return lambda data: os.write(number, data)
        host, _, port = to[4:].rpartition(":")
        if not host or not port.isdecimal():
            raise Refused(f"{to} has no port: udp:HOST:PORT is asked for")
        try:
            family, _, _, _, address = socket.getaddrinfo(host.strip("[]"), int(port), type=socket.SOCK_DGRAM)[0]
        except OSError as error:
            raise Refused(f"{to}: {error.strerror}")
        made = socket.socket(family, socket.SOCK_DGRAM)
        return lambda data: made.sendto(data, address)

    def beside(self, work):
        """Lets some work run beside the rest, for as long as the program runs."""
        threading.Thread(target=work, daemon=True).start()


def write_whole(path, text):
    """The file has the whole text or is as it was: nobody ever meets half of it."""
    half = f"{path}.half"
    with open(half, "w") as file:
        file.write(text)
    os.replace(half, path)

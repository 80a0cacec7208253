"""Runs a command, and tells how long it took and how much memory its process had at most.

The peak that the system tells of a process begins with the memory of the one that started it. So a small Python starts it.
"""
import os
import signal
import subprocess
import sys

STARTER = """
import os, sys, time
begin = time.perf_counter()
child = os.posix_spawn(sys.argv[1], sys.argv[1:], os.environ)
_, status, used = os.wait4(child, 0)
taken = time.perf_counter() - begin
print(taken, used.ru_utime + used.ru_stime, used.ru_maxrss, os.WEXITSTATUS(status) if os.WIFEXITED(status) else -1, file=sys.stderr)
"""


class Run:
    """What a run took: seconds, those of a processor, megabytes at the peak, the status, what was printed, and what standard
    error said. One that was stopped at its limit has no status, and took forever."""

    def __init__(self, words, folder=None, limit=None):
        command = [sys.executable, "-I", "-S", "-c", STARTER, *map(str, words)]
        self.seconds = self.processor = float("inf")
        self.megabytes, self.status, self.text, self.said = 0.0, None, b"", b""
        with subprocess.Popen(command, cwd=folder, stdout=subprocess.PIPE, stderr=subprocess.PIPE,
                              start_new_session=True) as process:
            try:
                text, told = process.communicate(timeout=limit)
            except subprocess.TimeoutExpired:
                os.killpg(process.pid, signal.SIGKILL)
                process.communicate()
                return
        *said, measured = told.splitlines(keepends=True)
        self.said = b"".join(said)
        seconds, processor, kilobytes, status = measured.split()
        self.seconds, self.processor = float(seconds), float(processor)
        self.megabytes, self.status, self.text = int(kilobytes) / 1024, int(status), text

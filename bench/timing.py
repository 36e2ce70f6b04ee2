"""Runs of a program, with their time and their memory, and the best of several of them."""
import re
import subprocess
import sys
import tempfile
import time

# How a run tells what it went through: a number, and what is to be added to have the number of layers.
OURS = r"horizon (\d+)", 1
YARDSTICK = r"layers (\d+)", 0


def run(words, text=""):
    """The seconds of one run, and its output."""
    start = time.monotonic()
    with tempfile.TemporaryFile() as out, tempfile.TemporaryFile() as source:
        source.write(text.encode())
        source.seek(0)
        process = subprocess.Popen(words, stdin=source, stdout=out)
        status = process.wait()
        seconds = time.monotonic() - start
        if status != 0:
            sys.exit(f"{words[0]} ended with the status {status}")
        out.seek(0)
        return seconds, out.read().decode()


def peak(words, text=""):
    """The greatest memory of one run in bytes, by GNU time: a child of this process would count what this one holds."""
    with tempfile.NamedTemporaryFile() as report:
        timed = ["/usr/bin/time", "-f", "%M", "-o", report.name] + words
        subprocess.run(timed, input=text.encode(), stdout=subprocess.DEVNULL, check=True)
        return int(report.read()) * 1024


class Measured:
    """The best time of some runs of a program to one bound, and how many cells they went through."""

    def __init__(self, told):
        self.pattern, self.first = told
        self.seconds, self.cells = float("inf"), 0

    def add(self, states, words, text=""):
        seconds, output = run(words, text)
        found = re.search(self.pattern, output)
        if not found:
            sys.exit(f"no number of layers in the output: {output[:200]!r}")
        self.seconds = min(self.seconds, seconds)
        self.cells = states * (int(found.group(1)) + self.first)

    def whole(self):
        """Nanoseconds a cell."""
        return self.seconds / self.cells * 1e9

    def more_than(self, short):
        """Nanoseconds for each cell that this has more than the other one."""
        return (self.seconds - short.seconds) / (self.cells - short.cells) * 1e9

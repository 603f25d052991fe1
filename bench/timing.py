"""Runs of the built program and of its peer in plain Python, with their times and peak memory."""
import os
import subprocess
import sys
import tempfile
import time

TOP = os.path.dirname(os.path.dirname(os.path.abspath(__file__)))
PROGRAM = os.path.join(TOP, "crates", "netplan", "out", "netplan")
# tests/reference.py answers to the same commands.
PEER = f"""
import csv, sys
sys.path.insert(0, {os.path.join(TOP, "tests")!r})
sys.dont_write_bytecode = True
from reference import answer
print(answer(sys.argv[1], list(csv.reader(sys.stdin)))[1], end="")
"""


def build():
    """The script builds the program where it is missing or older than its sources."""
    subprocess.run([os.path.join(TOP, "netplan"), "check"], stdin=subprocess.DEVNULL, stdout=subprocess.DEVNULL, check=False)


def peak_of(command, path):
    """Peak memory in MB, as `time` tells it: a child of this process would tell this process's own memory where that is more."""
    with tempfile.NamedTemporaryFile("r") as note, open(path) as source:
        subprocess.run(["/usr/bin/time", "-f", "%M", "-o", note.name] + command, stdin=source, stdout=subprocess.DEVNULL, check=False)
        return int(note.read().split()[-1]) / 1024


def timed(command, path, runs):
    """The best of the seconds of so many runs over a file, the start of the process included, peak memory, and what was printed."""
    best = None
    for _ in range(runs):
        with open(path) as source:
            began = time.perf_counter()
            child = subprocess.Popen(command, stdin=source, stdout=subprocess.PIPE)
            printed = child.stdout.read().decode()
            child.wait()
            seconds = time.perf_counter() - began
        best = seconds if best is None else min(best, seconds)
    return best, peak_of(command, path), printed


def beside(command, text, peer, runs=5):
    """The program's time and memory on a text, those of the peer, and what the program printed. Where the peer is
    `PEER`, both have to print the same."""
    with tempfile.NamedTemporaryFile("w", suffix=".csv", delete=False) as file:
        file.write(text)
    try:
        ours, our_peak, printed = timed([PROGRAM, command], file.name, runs)
        theirs, their_peak, said = timed([sys.executable, "-c", peer, command], file.name, 1 if peer is PEER else runs)
    finally:
        os.unlink(file.name)
    assert peer is not PEER or printed == said, (printed[:200], said[:200])
    return (ours, our_peak), (theirs, their_peak), printed


def row(name, figures, ours, theirs, before):
    """A line of a table: the name of the row, its figures, and both times and memories. Answers the program's seconds."""
    ratio = "" if before is None else f"{ours[0] / before:.1f}"
    cells = [f"{figure:>10,}" for figure in figures]
    print(f"{name:>8}", *cells, f"{ours[0]:8.4f} {ours[1]:6.1f} {ratio:>6} {theirs[0]:9.3f} {theirs[1]:6.1f}")
    return ours[0]


def heading(name, figures):
    print(f"{name:>8}", *[f"{figure:>10}" for figure in figures], f"{'seconds':>8} {'MB':>6} {'ratio':>6} {'Python':>9} {'MB':>6}")

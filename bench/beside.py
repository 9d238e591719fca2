#!/usr/bin/env python3
"""Compares two builds of `mfpx`, or another program of the same words, on the same schedules in one sitting.

    bench/beside.py PROGRAM OTHER FILE..

Prints a row for each FILE as docs/PERFORMANCE.md has them: instructions (callgrind), seconds of the processor (best of five, in turn)
and peak memory, each as ours, the other's, and their quotient, which is above 1 where ours takes less. Status 1: the two printed
different bytes for a FILE. It needs valgrind.
"""
import hashlib
import os
import re
import statistics
import subprocess
import sys
import tempfile

TRIES = 5


def main(ours, other, *files):
    programs = [os.path.abspath(ours), os.path.abspath(other)]
    print("| Schedule | Instructions, M | Ratio | Seconds | Ratio | MB | Ratio |\n|---|---|---|---|---|---|---|")
    rows, differing = [], []
    for file in files:
        printed, seconds, megabytes = timed(programs, file)
        if printed[0] != printed[1]:
            differing.append(file)
        figures = [(counted(it, file) / 1e6 for it in programs), seconds, megabytes]
        row = [tuple(it) for it in figures]
        rows.append([b / a for a, b in row])
        cells = "".join(" %s, %s | %.2f |" % (short(a), short(b), b / a) for a, b in row)
        print("| %s |%s" % (os.path.basename(file), cells), flush=True)
    medians = [statistics.median(it) for it in zip(*rows)]
    print("| median |%s" % "".join(" | %.2f |" % it for it in medians))
    for file in differing:
        print("other bytes: %s" % file)
    return 1 if differing else 0


def timed(programs, file):
    """What each prints, its least seconds of the processor and its greatest memory."""
    printed, seconds, megabytes = [None, None], [9e9, 9e9], [0, 0]
    for _ in range(TRIES):
        for i, program in enumerate(programs):
            with tempfile.TemporaryFile() as out:
                child = subprocess.Popen([program, "replay", file], stdout=out, stderr=subprocess.DEVNULL)
                _, status, used = os.wait4(child.pid, 0)
                child.returncode = os.waitstatus_to_exitcode(status)
                out.seek(0)
                # (no more of it is held, as a child's peak begins with what this process has)
                printed[i] = (child.returncode, hashlib.file_digest(out, "sha256").digest())
            seconds[i] = min(seconds[i], used.ru_utime + used.ru_stime)
            megabytes[i] = max(megabytes[i], used.ru_maxrss / 1024)
    return printed, seconds, megabytes


def counted(program, file):
    """How many instructions it takes."""
    words = ["valgrind", "--tool=callgrind", "--callgrind-out-file=/dev/null", program, "replay", file]
    told = subprocess.run(words, stdout=subprocess.DEVNULL, stderr=subprocess.PIPE, text=True).stderr
    return int(re.search(r"Collected : (\d+)", told)[1])


def short(figure):
    return "%.3f" % figure if figure < 1 else "%.1f" % figure if figure < 100 else "%d" % figure


if __name__ == "__main__":
    sys.exit(main(*sys.argv[1:]))

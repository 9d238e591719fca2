"""What the scripts of this folder share: a program built once, and calls a second of processor time.

A word of `conformance` is run with ever more rounds until it takes a tenth of a second, and then three times. The best of
the three counts, less what the process takes for no round at all. It is the processor's time, so that other work on the
machine changes little.
"""

import os
import subprocess
import sys

ENOUGH = 0.1
TRIES = 3


def program():
    """The program that the first word of the command line names, or crates/conformance, proved and built."""
    if len(sys.argv) > 1:
        return sys.argv[1]
    folder = os.path.join(os.path.dirname(os.path.abspath(__file__)), "..", "crates", "conformance")
    done = subprocess.run(["rt", "run", "--", "datetimes", "1"], cwd=folder, stdout=subprocess.DEVNULL)
    if done.returncode != 0:
        sys.exit("rt run failed in %s" % folder)
    return os.path.join(folder, "out", "conformance")


def seconds(path, words, rounds):
    """The processor's time of one run."""
    child = subprocess.Popen([path, *words, str(rounds)], stdout=subprocess.DEVNULL)
    _, status, usage = os.wait4(child.pid, 0)
    if status != 0:
        sys.exit("the program ended with status %d" % os.waitstatus_to_exitcode(status))
    return usage.ru_utime + usage.ru_stime


def best(path, words, rounds):
    return min(seconds(path, words, rounds) for _ in range(TRIES))


def calls_a_second(path, words):
    start = best(path, words, 0)
    rounds = 1
    while seconds(path, words, rounds) < start + ENOUGH:
        rounds *= 4
    return rounds / max(best(path, words, rounds) - start, 1e-9)


def figure(calls):
    """A number of calls, in the form that fits."""
    if calls >= 1e6:
        return "%.2f M" % (calls / 1e6)
    return "%.1f k" % (calls / 1e3)


def table(path, words, sizes, what="points"):
    """A line for each word, with a figure for each size, which is a number of points or of what else there is."""
    print("calls a second of processor time, best of %d, on %d cores" % (TRIES, os.cpu_count()))
    print("%-16s" % what + "".join("%12d" % size for size in sizes))
    for word in words:
        row = [figure(calls_a_second(path, [word, str(size)])) for size in sizes]
        print("%-16s" % word + "".join("%12s" % cell for cell in row), flush=True)

#!/usr/bin/env python3
"""Times frames that three nodes are delivered: flushed in the world, through queues in memory, and through sockets.

    bench/loopback.py [BENCHMARKS [MFPX]]    the two programs; where none is given, `rt run` in crates/conformance proves
                                             and builds the first, and the second is crates/mfpx/out/mfpx

A client submits requests, 64 at a time, as many as may wait, and all frames are delivered then: 18 for the campaign and its no-op, and
12 for each request. `flushed` and `pumped` are words of `conformance`, in frames a second of processor time; the two differ by the cost of
the index, the queues and the 100 idle passes of a pump. Through sockets the same is a schedule that `mfpx loopback` runs, in frames a
second of processor time and of the clock, beside `mfpx replay`.
"""

import os
import subprocess
import sys
import tempfile
import time

import timing

REQUESTS = (10, 1000, 10000)
THROUGH_SOCKETS = (10, 1000)


def frames(requests):
    return 18 + 12 * requests


def through_program(path, requests):
    """Frames a second of each word."""
    rates = []
    for word in ("flushed", "pumped"):
        rates.append(timing.calls_a_second(path, [word, str(requests)]) * frames(requests))
    return rates


def schedule(requests):
    lines = ["nodes 3", "timeout 0", "flush"]
    for number in range(1, requests + 1):
        lines += ["submit 0 7 %d remove bus-7" % number] + ["flush"] * (number % 64 == 0)
    lines.append("flush")
    return "\n".join(lines) + "\n"


def run(path, work, file):
    """The processor's time and the clock's of one run, and its last line."""
    begun = time.monotonic()
    with subprocess.Popen([path, work, file], stdout=subprocess.PIPE) as child:
        text = child.stdout.read().decode()
        _, status, usage = os.wait4(child.pid, 0)
        child.returncode = os.waitstatus_to_exitcode(status)
    if child.returncode != 0:
        sys.exit("%s %s ended with status %d" % (path, work, child.returncode))
    return usage.ru_utime + usage.ru_stime, time.monotonic() - begun, text


def through_sockets(path, requests):
    with tempfile.NamedTemporaryFile("w", suffix=".schedule") as file:
        file.write(schedule(requests))
        file.flush()
        for work in ("replay", "loopback"):
            runs = [run(path, work, file.name) for _ in range(timing.TRIES)]
            busy, clock = min(it[0] for it in runs), min(it[1] for it in runs)
            lines = runs[0][2].splitlines()
            told = "%s, %d lines" % (lines[-1], len(lines)) if work == "loopback" else "%d lines" % len(lines)
            count = frames(requests)
            print("%-9s %6d requests: %12s frames a second of processor time, %12s of the clock (%s)"
                  % (work, requests, timing.figure(count / max(busy, 1e-3)), timing.figure(count / clock), told))


def main():
    path = timing.program()
    print("frames a second of processor time, best of %d, on %d cores" % (timing.TRIES, os.cpu_count()))
    for requests in REQUESTS:
        flushed, pumped = through_program(path, requests)
        figures = timing.figure(flushed), timing.figure(pumped), pumped / flushed
        print("%6d requests: flushed %12s, pumped %12s, ratio %.2f" % (requests, *figures))
    here = os.path.dirname(os.path.abspath(__file__))
    mfpx = sys.argv[2] if len(sys.argv) > 2 else os.path.join(here, "..", "crates", "mfpx", "out", "mfpx")
    for requests in THROUGH_SOCKETS:
        through_sockets(mfpx, requests)


if __name__ == "__main__":
    main()

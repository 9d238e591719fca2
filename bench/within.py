#!/usr/bin/env python3
"""Times `within` over 256 features that move one after the other: microseconds a query, by how many the period touches.

    bench/within.py [PROGRAM]        PROGRAM is crates/mfpx/out/mfpx, which `rt run` in crates/mfpx builds

Each feature has 64 instants, a second apart, and begins a second after the one before has ended; in the byte order of
ids they come mixed. The rectangle has all of their positions. A replay of as many `count` queries over the same features
is subtracted, and with it what the lines themselves take.
"""

import json
import os
import random
import subprocess
import sys
import tempfile

FEATURES = 256
POINTS = 64
TOUCHED = (0, 26, 128, 256)
QUERIES = 5_000
TRIES = 5


def datetime(second):
    return "2020-01-01T%02d:%02d:%02dZ" % (second // 3600, second // 60 % 60, second % 60)


def puts():
    """A run in which the features are put and learnt."""
    places = list(range(FEATURES))
    random.Random(FEATURES).shuffle(places)
    lines = ["nodes 3", "timeout 0", "flush"]
    for number, place in enumerate(places):
        seconds = range(POINTS * place, POINTS * (place + 1))
        document = json.dumps({
            "type": "Feature",
            "id": "bus-%03d" % number,
            "temporalGeometry": {
                "type": "MovingPoint",
                "interpolation": "Linear",
                "datetimes": [datetime(second) for second in seconds],
                "coordinates": [[second % 100, second % 7] for second in seconds],
            },
        })
        lines += ["submit 0 7 %d put %s" % (number + 1, document), "flush"]
    return lines


def within(touched):
    """A query whose period so many features touch."""
    if touched == 0:
        period = (POINTS * FEATURES, POINTS * FEATURES + 1)
    else:
        period = (0, POINTS * touched - 1)
    return "query 0 within %s %s 0 0 100 100" % (datetime(period[0]), datetime(period[1]))


def seconds(program, lines):
    """The processor's time of the best replay."""
    with tempfile.NamedTemporaryFile("w", suffix=".schedule") as file:
        file.write("\n".join(lines) + "\n")
        file.flush()
        times = []
        for _ in range(TRIES):
            child = subprocess.Popen([program, "replay", file.name], stdout=subprocess.DEVNULL)
            _, status, usage = os.wait4(child.pid, 0)
            if status != 0:
                sys.exit("the program ended with status %d" % os.waitstatus_to_exitcode(status))
            times.append(usage.ru_utime + usage.ru_stime)
        return min(times)


def main():
    here = os.path.dirname(os.path.abspath(__file__))
    program = sys.argv[1] if len(sys.argv) > 1 else os.path.join(here, "..", "crates", "mfpx", "out", "mfpx")
    start = puts()
    base = seconds(program, start + ["query 0 count"] * QUERIES)
    for touched in TOUCHED:
        taken = seconds(program, start + [within(touched)] * QUERIES) - base
        print("%3d of %d features touched: %6.1f microseconds" % (touched, FEATURES, 1e6 * taken / QUERIES))


if __name__ == "__main__":
    main()

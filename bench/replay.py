#!/usr/bin/env python3
"""Times `mfpx replay` on long schedules: lines a second and peak memory.

    bench/replay.py [PROGRAM]        PROGRAM is crates/mfpx/out/mfpx, which `rt run` in crates/mfpx builds

Each schedule has a number of lines: requests, campaigns, frames delivered again and again, ticks, restarts, armed
faults and queries, drawn from one seed. The cost of a line must not grow with the number of lines.

Then whole replays a second: a run that puts a feature of some points as a document, delivers all its frames, appends at
each node, and asks each kind of query at each node.
"""

import json
import os
import random
import subprocess
import sys
import tempfile
import time

COUNTS = (2_000, 20_000, 200_000)
POINTS = (2, 64, 512)


def schedule(count):
    """A schedule of this many lines. Only frames that are sure to be there are delivered."""
    draw = random.Random(count)
    lines = ["nodes 3", "submit 0 7 1 remove bus-7", "timeout 0", "flush"]
    kinds = ["deliver"] * 6 + ["tick", "query", "restart", "fault", "submit", "timeout", "drop", "flush"]
    while len(lines) < count:
        kind = draw.choice(kinds)
        node = draw.randrange(3)
        if kind in ("deliver", "drop"):
            # The first campaign sent 18 frames.
            lines.append("%s %d" % (kind, draw.randrange(18)))
        elif kind == "query":
            lines.append("query %d count" % node)
        elif kind == "fault":
            lines.append("fault %d %s" % (node, draw.choice(("old", "new"))))
        elif kind == "submit":
            lines.append("submit %d %d %d remove bus-7" % (node, draw.randrange(256), draw.randrange(1, 9)))
        elif kind == "flush":
            lines.append("flush")
        else:
            lines.append("%s %d" % (kind, node))
    return "\n".join(lines) + "\n"


def datetime(second):
    return "2020-01-01T%02d:%02d:%02dZ" % (second // 3600, second // 60 % 60, second % 60)


def fleet(points):
    """A run in which a feature of so many points is put, learnt by all, extended at a node that doesn't lead, and asked for."""
    day = "%s %s" % (datetime(0), datetime(points - 1))
    area = "0 0 1000 1000"
    document = json.dumps({
        "type": "Feature",
        "id": "bus-7",
        "temporalGeometry": {
            "type": "MovingPoint",
            "interpolation": "Linear",
            "datetimes": [datetime(second) for second in range(points)],
            "coordinates": [[second, second % 7] for second in range(points)],
        },
    })
    lines = ["nodes 3", "submit 0 7 1 put " + document, "timeout 0", "flush"]
    for node in range(3):
        # It waits at the node, unless that one leads.
        lines.append("submit %d 8 1 append bus-7 %s 1 1" % (node, datetime(points)))
        questions = [
            "at bus-7 " + datetime(points // 2), "cut bus-7 " + day, "ever bus-7 %s %s" % (day, area),
            "always bus-7 %s %s" % (day, area), "within %s %s" % (day, area), "get bus-7", "count",
        ]
        lines += ["query %d %s" % (node, question) for question in questions]
    return "\n".join(lines) + "\n"


def timed(program, path):
    """Seconds and peak memory in MB of one run."""
    before = time.perf_counter()
    child = subprocess.Popen([program, "replay", path], stdout=subprocess.DEVNULL)
    _, status, usage = os.wait4(child.pid, 0)
    if status != 0:
        sys.exit("the program ended with status %d" % os.waitstatus_to_exitcode(status))
    return time.perf_counter() - before, usage.ru_maxrss / 1024


def main():
    here = os.path.dirname(os.path.abspath(__file__))
    program = sys.argv[1] if len(sys.argv) > 1 else os.path.join(here, "..", "crates", "mfpx", "out", "mfpx")
    for count in COUNTS:
        with tempfile.NamedTemporaryFile("w", suffix=".schedule") as file:
            file.write(schedule(count))
            file.flush()
            seconds, memory = min(timed(program, file.name) for _ in range(3))
        print("%7d lines: %9.0f lines a second, %6.1f MB" % (count, count / seconds, memory))
    for points in POINTS:
        with tempfile.NamedTemporaryFile("w", suffix=".schedule") as file:
            file.write(fleet(points))
            file.flush()
            seconds, memory = min(timed(program, file.name) for _ in range(20))
        print("%7d points put and asked for: %6.0f replays a second, %6.1f MB" % (points, 1 / seconds, memory))


if __name__ == "__main__":
    main()

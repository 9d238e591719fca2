#!/usr/bin/env python3
"""Times the questions of one moving point at 2, 64 and 1,024 points: calls a second.

    bench/point_queries.py [PROGRAM]        PROGRAM is crates/conformance/out/conformance; where none is given, `rt run` in
                                     crates/conformance proves and builds it first
"""

import timing

WORDS = (
    "value_at",
    "ever_middle",
    "ever_whole",
    "always_middle",
    "always_whole",
    "cut_middle",
    "cut_whole",
    "write",
)


def main():
    path = timing.program()
    timing.table(path, WORDS, (2, 64, 1024))
    print("%-16s%12s" % ("datetimes", timing.figure(timing.calls_a_second(path, ["datetimes"]))))


if __name__ == "__main__":
    main()

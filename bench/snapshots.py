#!/usr/bin/env python3
"""Times the snapshot text of a machine, and trims of the votes in a storage in memory: milliseconds.

    bench/snapshots.py [PROGRAM]     PROGRAM is crates/conformance/out/conformance; where none is given, `rt run` in
                                     crates/conformance proves and builds it first

The text is the greatest that a machine has: 256 features with names of 64 bytes and 1,024 points each, and 256 clients. It
is copied, written, and read into a machine; and once the text of that machine is written and compared with it. The figures
beside the milliseconds are how many copies of the text take as long.

A log of 65,536 votes is trimmed 650 times, 100 slots further each time. Beside it stand the puts of as many votes, with the
records that they take; and a trim that finds nothing any more, at slot 100 and at slot 65,000, of which many thousand are run.
"""

import subprocess
import sys

import timing

TIMES = 7
POINTS = "1024"
LENGTH = 6311428
COPIES = 40
TRIMS = 650
SLOTS = "100"
IDLE_SLOTS = ("100", "65000")
IDLE_TRIMS = 4_000_000


def milliseconds(path, words, rounds):
    """What so many rounds take, in milliseconds, without what the program takes for none."""
    times = {count: min(timing.seconds(path, words, count) for _ in range(TIMES)) for count in (0, rounds)}
    return 1000 * (times[rounds] - times[0])


def is_same_again(path):
    """Whether the machine that the text is read into has the same text."""
    done = subprocess.run([path, "text_written_again", POINTS, "1"], capture_output=True, text=True, check=True)
    return int(done.stdout) == LENGTH


def main():
    path = timing.program()
    if not is_same_again(path):
        sys.exit("a restored machine has another text")
    print("the text of 256 features of 1,024 points, %d bytes; a machine that is read from it has the same" % LENGTH)
    print("milliseconds of processor time, best of %d" % TIMES)
    copied = milliseconds(path, ["text_copied", POINTS], COPIES) / COPIES
    print("%-40s%10.2f" % ("the text copied", copied))
    for word, what in (("text_written", "the text written"), ("text_restored", "a machine restored")):
        taken = milliseconds(path, [word, POINTS], COPIES) / COPIES
        print("%-40s%10.2f%8.1f copies" % (what, taken, taken / copied), flush=True)
    for word, what in (("votes_put", "65,000 votes put"), ("votes_trimmed", "650 trims of 100 slots")):
        print("%-40s%10.2f" % (what, milliseconds(path, [word, SLOTS], TRIMS)), flush=True)
    for slot in IDLE_SLOTS:
        taken = milliseconds(path, ["votes_trimmed_again", slot], IDLE_TRIMS)
        print("%-40s%10.6f" % ("a trim that finds nothing, at slot %s" % slot, taken / IDLE_TRIMS), flush=True)


if __name__ == "__main__":
    main()

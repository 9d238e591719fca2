#!/usr/bin/env python3
"""Runs schedules with a failure of a node's records put before each of their lines in turn, and judges each transcript.

    check/storage_faults.py [PROGRAM [FILE..]]

PROGRAM is crates/mfpx/out/mfpx where none is given; the FILEs are schedules, without any seven of the examples.

For each node M, and before each line but the first, `checkpoint M` and `trim M`, as they are and with each of them failing in each
way; and without them `fault M old`, then `fault M new`, then `fault M read` with `restart M` behind it. Behind the last line each node
is restarted and sends again, all frames are delivered, and each is asked for its count. All records are kept in files. A line that
delivers or drops what was never sent, as a node was down by then, ends a run with fault 51; in a world it does nothing, so the run is
made again without it. A run ends well with status 0, a transcript that one list explains, and checkpoints
in its files whose texts it explains too (`one_log.py`). Every other end is printed, and the script then ends with 1.
"""

import os
import re
import subprocess
import sys
import tempfile

import one_log
from refuse_memory import afterwards, nodes_of

HERE = os.path.dirname(os.path.abspath(__file__))
DATA = os.path.join(HERE, "..", "examples")
NAMES = ("leaders_in_turn", "gap_filled_by_a_no_op", "round_too_low", "two_leaders", "log_of_five_slots", "outage_led_by_hand",
         "snapshot_in_one_part")
NO_FRAME = re.compile(r"mfpx: line ([0-9]+) fault 51\n")


def faults(node):
    """The lines that make the records of a node fail, in each of the three ways; and those that take out what it needs no more."""
    more = [["fault N old"], ["fault N new"], ["fault N read", "restart N"], ["checkpoint N", "trim N", "restart N"],
            ["checkpoint N", "trim N"], ["fault N read", "checkpoint N", "trim N", "restart N"],
            ["fault N old", "checkpoint N"], ["fault N new", "checkpoint N", "restart N", "trim N"],
            ["checkpoint N", "fault N old", "trim N"], ["checkpoint N", "fault N new", "trim N", "restart N"]]
    return [[line.replace("N", str(node)) for line in lines] for lines in more]


def ended(program, lines):
    """How a run ended: `explained`, or what was wrong; and how many lines were left out, as their frames were never sent."""
    left = lines
    while True:
        text = "".join(line + "\n" for line in left)
        with tempfile.TemporaryDirectory() as folder:
            ran = subprocess.run([program, "replay", "-", "--db", folder], input=text, capture_output=True, text=True, timeout=60)
            found = NO_FRAME.fullmatch(ran.stderr)
            if ran.returncode != 1 or ran.stdout or not found:
                return judged(ran, text, folder), len(lines) - len(left)
        at = int(found.group(1)) - 1
        if left[at].split()[0] not in ("deliver", "drop"):
            return ran.stderr, len(lines) - len(left)
        left = left[:at] + left[at + 1:]


def judged(ran, text, folder):
    """Whether this run of a schedule is `explained`, or what is wrong."""
    if ran.returncode != 0:
        return "status %d: %s" % (ran.returncode, ran.stderr)
    try:
        one_log.explain(text.encode(), ran.stdout, folder=folder)
    except (one_log.Unexplained, one_log.Undecided) as fault:
        return str(fault)
    return "explained"


def main():
    program = os.path.abspath(sys.argv[1] if len(sys.argv) > 1 else os.path.join(HERE, "..", "crates", "mfpx", "out", "mfpx"))
    files = sys.argv[2:] or [os.path.join(DATA, name + ".schedule") for name in NAMES]
    wrong = 0
    for file in files:
        with open(file, encoding="utf-8") as it:
            lines = [line for line in it.read().splitlines() if line]
        runs = without = 0
        for node in range(nodes_of(lines)):
            for at in range(1, len(lines)):
                for more in faults(node):
                    end, left_out = ended(program, lines[:at] + more + lines[at:] + afterwards(lines))
                    runs += 1
                    without += left_out > 0
                    if end != "explained":
                        wrong += 1
                        print("%s, %s before line %d: %s" % (os.path.basename(file), ", ".join(more), at + 1, end))
        print("%s: %d runs, %d of them without frames that were never sent" % (os.path.basename(file), runs, without))
    print("%d runs wrong" % wrong)
    sys.exit(1 if wrong else 0)


if __name__ == "__main__":
    main()

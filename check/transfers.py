#!/usr/bin/env python3
"""Runs transfers of a snapshot whose frames are lost, come again and come in other orders, and judges each run.

    check/transfers.py [PROGRAM] [--orders N] [--seed N]

PROGRAM is crates/mfpx/out/mfpx where none is given. The schedules are the examples `snapshot_in_one_part` and `snapshot_in_two_parts`; the
transfer is what stands behind the first `tick 2`, and no other frame waits then. In its turn each of these lines is left out, told again at once or at the end, or has
`drop` in the place of `deliver`; before each of them comes a restart of a node, a tick, or a further checkpoint of another one, behind one
more request; and the lines stand in N drawn orders (200; of four deliveries there are 24). A line that names a frame which was never sent is
left out. Behind the last line each node sends again and all frames are delivered, twice.

A run ends well with status 0 and a transcript that one list explains (`one_log.py`), and in the end all nodes stand at one position and
answer alike. Every other end is printed, and the script then ends with 1. `storage_faults.py` has records fail in a transfer, and
`refuse_memory.py` refuses memory.
"""

import argparse
import itertools
import os
import random
import re
import subprocess
import sys

import one_log

HERE = os.path.dirname(os.path.abspath(__file__))
EXAMPLES = os.path.join(HERE, "..", "examples")
# The example, and a feature that is asked for in the end.
TRANSFERS = (("snapshot_in_one_part", "bus-7"), ("snapshot_in_two_parts", "c"))
BEGINS = "tick 2"
NODES = range(3)
NO_FRAME = re.compile(r"mfpx: line ([0-9]+) fault 51\n")


def run(program, lines):
    """A run of the lines without those that name a frame which was never sent: the lines that were run, and how it ended."""
    while True:
        text = "".join(line + "\n" for line in lines)
        done = subprocess.run([program, "replay", "-"], input=text, capture_output=True, text=True, timeout=60)
        found = NO_FRAME.fullmatch(done.stderr)
        at = int(found.group(1)) - 1 if found else 0
        if not found or lines[at].split()[0] not in ("deliver", "drop"):
            return lines, done
        lines = lines[:at] + lines[at + 1:]


def without_waiting(program, lines):
    """The lines, and behind them all frames that were sent wait no more."""
    frame = 0
    while run(program, lines + ["drop %d" % frame])[0] != lines:
        frame += 1
    return lines + ["drop %d" % it for it in range(frame)]


def behind(feature):
    """What comes behind the last line: ticks and flushes, and what all nodes are asked for."""
    again = ["tick %d" % node for node in NODES] + ["flush"]
    return again + again + ["query %d get %s" % (node, feature) for node in NODES]


def wrong_of(program, lines, feature):
    """What is wrong with a run, or None; and whether a node was restored in it."""
    lines, done = run(program, lines + behind(feature))
    if done.returncode != 0:
        return "status %d: %s" % (done.returncode, done.stderr), False
    was_restored = "restore " in done.stdout
    try:
        one_log.explain("".join(line + "\n" for line in lines).encode(), done.stdout)
    except (one_log.Unexplained, one_log.Undecided) as fault:
        return str(fault), was_restored
    ends = {line.split(" ", 2)[2] for line in done.stdout.splitlines()[-len(NODES):]}
    return None if len(ends) == 1 else "the nodes end apart: %s" % ", ".join(sorted(it[:40] for it in ends)), was_restored


def changes(before, transfer):
    """Schedules with a change in one place of the transfer, each with a name."""
    for i, line in enumerate(transfer):
        head, tail = before + transfer[:i], transfer[i + 1:]
        yield "without %s" % line, head + tail
        yield "%s twice" % line, head + [line, line] + tail
        yield "%s again at the end" % line, head + [line] + tail + [line]
        if line.startswith("deliver "):
            yield "%s lost" % line, head + [line.replace("deliver", "drop")] + tail
        for more in ["restart %d" % node for node in NODES] + ["tick %d" % node for node in NODES]:
            yield "%s before %s" % (more, line), head + [more, line] + tail
        for node in (0, 1):
            later = ["submit %d 9 1 remove x" % node, "timeout %d" % node, "round %d 0 1" % node, "checkpoint %d" % node, "trim %d" % node]
            yield "a later checkpoint of node %d before %s" % (node, line), head + later + [line] + tail


def orders(before, transfer, most, draw):
    """Schedules with the lines of the transfer in another order: all of them, or so many drawn ones."""
    if len(transfer) < 6:
        found = itertools.permutations(transfer)
    else:
        found = (draw.sample(transfer, len(transfer)) for _ in range(most))
    for order in found:
        yield ", ".join(order), before + list(order)


def main():
    parser = argparse.ArgumentParser(description=__doc__, formatter_class=argparse.RawDescriptionHelpFormatter)
    parser.add_argument("program", nargs="?", default=os.path.join(HERE, "..", "crates", "mfpx", "out", "mfpx"))
    parser.add_argument("--orders", type=int, default=200, metavar="N")
    parser.add_argument("--seed", type=int, default=1, metavar="N")
    asked = parser.parse_args()
    program, draw, total, wrong = os.path.abspath(asked.program), random.Random(asked.seed), 0, 0
    for name, feature in TRANSFERS:
        with open(os.path.join(EXAMPLES, name + ".schedule")) as file:
            lines = [line for line in file.read().splitlines() if not line.startswith("query ")]
        begin = lines.index(BEGINS)
        before, transfer = without_waiting(program, lines[:begin]), lines[begin:]
        runs = restored = 0
        for title, changed in itertools.chain(changes(before, transfer), orders(before, transfer, asked.orders, draw)):
            end, was_restored = wrong_of(program, changed, feature)
            runs, restored, wrong = runs + 1, restored + was_restored, wrong + (end is not None)
            if end is not None:
                print("%s, %s: %s" % (name, title, end), flush=True)
        total += runs
        print("%s: %d runs, %d of them with a restore" % (name, runs, restored), flush=True)
    print("%d runs, %d wrong" % (total, wrong))
    return 1 if wrong else 0


if __name__ == "__main__":
    sys.exit(main())

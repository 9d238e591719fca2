#!/usr/bin/env python3
"""Runs a bit of each check of this folder, and ends with one line.

    check/all.py [--minutes N] [--seed N] [--mfpx PROGRAM] [--conformance PROGRAM]

The programs are crates/mfpx/out/mfpx and crates/conformance/out/conformance where none are given; `rt run` in their folders proves and
builds them, `tools/unproved.py` builds them without proofs. Checks of a fixed length come first, one line each; the two fuzzers share
what is left of the N minutes (5). Files are made in memory where /dev/shm is there. Without a seed the clock gives one, which is printed.
A check that fails is named in the last line, its output is printed above, and the script ends with 1. A check whose program isn't there
is left out, and named too.
"""

import argparse
import os
import subprocess
import sys
import time

HERE = os.path.dirname(os.path.abspath(__file__))
TOP = os.path.dirname(HERE)
EXAMPLES = os.path.join(TOP, "examples")
MEMORY = "/dev/shm"
LEAST = 5


def program(name):
    return os.path.join(TOP, "crates", name, "out", name)


def fixed(mfpx, seed):
    """The checks of a fixed length: the script, the program that it needs, its words."""
    return (
        ("one_log_selftest.py", None, [EXAMPLES, "--longest", "40", "--changes", "1", "--seed", str(seed)]),
        ("fault_places.py", program("mfpxview"), [program("mfpxview"), "--runs", "500", "--seed", str(seed)]),
        ("import_tracks_selftest.py", None, [mfpx] if os.path.exists(mfpx) else []),
        ("storage_faults.py", mfpx, [mfpx]),
        ("refuse_memory.py", mfpx, [mfpx]),
        ("transfers.py", mfpx, [mfpx, "--orders", "20", "--seed", str(seed)]),
        ("records_on_disk.py", mfpx, [mfpx, EXAMPLES, "8", str(seed)]),
        ("disk_full.py", mfpx, [mfpx]),
        ("kill_at_random.py", mfpx, [mfpx, "50", str(seed)]),
        ("udp_flood.py", mfpx, [mfpx, "2"]),
    )


def fuzzers(mfpx, conformance, seed, seconds):
    """The checks that go on for so many seconds together."""
    return (
        ("fuzz.py", mfpx, [mfpx, EXAMPLES, "--seconds", str(seconds * 2 // 3), "--seed", str(seed)]),
        ("fuzz_frames.py", conformance, [conformance, "--seconds", str(seconds // 3), "--seed", str(seed)]),
    )


def is_right(script, needs, words):
    """Runs a check, prints its last line, and all of its lines where it fails; None where its program isn't there."""
    if needs and not os.path.exists(needs):
        print("%-25s left out: there is no %s" % (script, os.path.relpath(needs)), flush=True)
        return None
    begun = time.monotonic()
    folder = {"TMPDIR": MEMORY} if os.path.isdir(MEMORY) else {}
    done = subprocess.run([sys.executable, os.path.join(HERE, script), *words], stdout=subprocess.PIPE, stderr=subprocess.STDOUT, text=True,
                          env={**os.environ, **folder})
    lines = done.stdout.splitlines() or [""]
    if done.returncode != 0:
        print(done.stdout, end="")
    print("%-25s %4.0f s  %s" % (script, time.monotonic() - begun, lines[-1]), flush=True)
    return done.returncode == 0


def main():
    parser = argparse.ArgumentParser(description=__doc__, formatter_class=argparse.RawDescriptionHelpFormatter)
    parser.add_argument("--minutes", type=float, default=5, metavar="N")
    parser.add_argument("--seed", type=int, default=int(time.time()), metavar="N")
    parser.add_argument("--mfpx", default=program("mfpx"), metavar="PROGRAM")
    parser.add_argument("--conformance", default=program("conformance"), metavar="PROGRAM")
    asked = parser.parse_args()
    begun, ends = time.monotonic(), {}
    print("seed %d" % asked.seed, flush=True)
    for check in fixed(asked.mfpx, asked.seed):
        ends[check[0]] = is_right(*check)
    left = max(2 * LEAST, int(asked.minutes * 60 - (time.monotonic() - begun)))
    for check in fuzzers(asked.mfpx, asked.conformance, asked.seed, left):
        ends[check[0]] = is_right(*check)
    failed, absent = ([name for name, end in ends.items() if end is wanted] for wanted in (False, None))
    says = "FAILED: %s" % " ".join(failed) if failed else "%d checks right" % (len(ends) - len(absent))
    without = "; left out: %s" % " ".join(absent) if absent else ""
    print("%s%s; seed %d, %.1f minutes" % (says, without, asked.seed, (time.monotonic() - begun) / 60))
    return 1 if failed or absent else 0


if __name__ == "__main__":
    sys.exit(main())

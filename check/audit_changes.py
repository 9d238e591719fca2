#!/usr/bin/env python3
"""Has `mfpxview audit` judge right transcripts, and each of them with one line changed.

    check/audit_changes.py PROGRAM [FOLDER ..] [--changes N] [--longest N]

A FOLDER (`examples` by default) has schedules, NAME.schedule beside NAME.transcript, or NAME beside NAME.stdout and NAME.status, which
is then 0. PROGRAM is called as `PROGRAM audit SCHEDULE TRANSCRIPT`. No right transcript may contradict. A changed one has
to end with 1 at the changed line, or with 3 where a request of the schedule is submitted with two operations. Lines are
changed so that no list can explain them: to a slot past the log, a node that isn't there, a request that nobody submitted, another
code, another text, or to no line of a transcript. `--changes N` tries N of the changes of each transcript (all by default), evenly;
`--longest N` leaves out transcripts of more lines.
"""

import argparse
import os
import subprocess
import sys
import tempfile
from collections import Counter

HERE = os.path.dirname(os.path.abspath(__file__))
EXAMPLES = os.path.join(os.path.dirname(HERE), "examples")
NOBODY = "255:18446744073709551615"
CODES = ("31", "24", "32", "21")


def pairs(folder):
    """Each schedule of the folder, and its transcript."""
    names = set(os.listdir(folder))
    for name in sorted(names):
        stem, ending = os.path.splitext(name)
        if ending == ".schedule" and stem + ".transcript" in names:
            yield os.path.join(folder, name), os.path.join(folder, stem + ".transcript")
        if ending == "" and {name + ".stdout", name + ".status"} <= names:
            with open(os.path.join(folder, name + ".status")) as status:
                if status.read().strip() == "0":
                    yield os.path.join(folder, name), os.path.join(folder, name + ".stdout")


def other_code(lines, request):
    """A code that no line replies with to this request: a reply names no position, so one of another slot's would be right."""
    replied = {line.rsplit(" ", 1)[1] for line in lines if line.startswith("reply ") and line.split(" ")[2] == request}
    return next(code for code in CODES if code not in replied)


def changes(line, lines):
    """This line of the transcript's changed in one place, in several ways."""
    words = line.split(" ")
    kind, rest = words[0], words[1:]
    if kind == "learn":
        yield " ".join([kind, rest[0], rest[1], NOBODY])
        yield " ".join([kind, rest[0], "65536", rest[2]])
        yield " ".join([kind, "9", rest[1], rest[2]])
    elif kind == "reply":
        yield " ".join([kind, rest[0], NOBODY, rest[2]])
        yield " ".join([kind, rest[0], rest[1], other_code(lines, rest[1])])
    elif kind == "answer":
        yield line + "x"
        yield " ".join([kind, rest[0], "65537"] + rest[2:])
    else:
        yield line + "99999"
    yield "x" + line
    yield line + " "
    yield line.upper()


def changed(lines):
    """The transcripts that differ in one line, each with the line's number, from 1."""
    for at, line in enumerate(lines):
        for other in changes(line, lines):
            if other != line:
                yield at + 1, lines[:at] + [other] + lines[at + 1 :]


def verdict(program, schedule, transcript):
    """The status and what was printed."""
    run = subprocess.run([program, "audit", schedule, transcript], capture_output=True, text=True, timeout=120)
    return run.returncode, run.stdout.strip()


def is_found(status, text, transcript, number):
    if status == 1:
        return text.startswith("%s:%d: " % (transcript, number))
    return status == 3 and text.endswith(" is submitted with two operations")


def main():
    words = argparse.ArgumentParser(description="Changed transcripts, audited.")
    words.add_argument("program")
    words.add_argument("folders", nargs="*", default=[EXAMPLES])
    words.add_argument("--changes", type=int, default=0)
    words.add_argument("--longest", type=int, default=0)
    asked = words.parse_args()
    counts, wrong = Counter(), 0
    with tempfile.TemporaryDirectory() as room:
        path = os.path.join(room, "changed")
        for schedule, transcript in (pair for folder in asked.folders for pair in pairs(folder)):
            with open(transcript) as right:
                lines = right.read().splitlines()
            if asked.longest and len(lines) > asked.longest:
                continue
            status, text = verdict(asked.program, schedule, transcript)
            counts["right, status %d" % status] += 1
            if status == 1:
                wrong += 1
                print("%s: %s" % (schedule, text))
            tries = list(changed(lines))
            step = max(1, len(tries) // asked.changes) if asked.changes else 1
            for number, others in tries[::step]:
                with open(path, "w") as other:
                    other.write("".join(line + "\n" for line in others))
                status, text = verdict(asked.program, schedule, path)
                counts["changed, status %d" % status] += 1
                if not is_found(status, text, path, number):
                    wrong += 1
                    print("%s, line %d changed to %r: %s" % (schedule, number, others[number - 1], text))
    print(", ".join("%s: %d" % it for it in sorted(counts.items())))
    return 1 if wrong else 0


if __name__ == "__main__":
    sys.exit(main())

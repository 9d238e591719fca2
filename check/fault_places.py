#!/usr/bin/env python3
"""Has `mfpxview why` tell the faults of changed examples: the line and the fault that the references find, at a place of that line.

    check/fault_places.py PROGRAM [--runs N] [--seed N]

Schedules and documents of the examples, and drawn documents, are changed as `fuzz.py` changes them. `reference_parser.py` and
`reference_db.py` say which fault each has, and where. PROGRAM, a built `mfpxview`, has to tell it first, with a column of the line and
a caret, and nothing where there is none. It prints how often each fault came, and ends with 1 where something else was told.
"""

import argparse
import collections
import glob
import os
import random
import re
import subprocess
import sys
import tempfile

import fuzz
import reference_db
import reference_parser

TOP = os.path.dirname(os.path.dirname(os.path.abspath(__file__)))
LONGEST = 20_000
AT_LINE = re.compile(rb":([0-9]+):([0-9]+): (document fault|fault) ([0-9]+): ")


def inputs(suffix):
    """The examples of this kind that aren't long."""
    found = []
    for path in sorted(glob.glob(os.path.join(TOP, "examples", "*" + suffix))):
        with open(path, "rb") as file:
            found.append(file.read())
    return [data for data in found if len(data) < LONGEST]


def schedule_fault(data):
    """The line and the fault of a schedule; zeros where it has none."""
    try:
        reference_parser.read(data)
    except reference_parser.Faulty as faulty:
        return faulty.line, faulty.fault
    return 0, 0


def document_fault(data):
    """The fault of a document, whose line no reference says."""
    try:
        reference_db.document(data.decode())
    except UnicodeDecodeError:
        return None, 1
    except reference_db.NoDocument as faulty:
        return None, faulty.fault
    return None, 0


def told(program, path, data):
    """The line, the column, the kind and the fault that PROGRAM tells first; None where it tells none."""
    with open(path, "wb") as file:
        file.write(data)
    done = subprocess.run([program, "why", path], capture_output=True, check=False)
    if done.returncode == 0 and not done.stdout:
        return None
    found = AT_LINE.match(done.stdout[len(path.encode()):])
    if done.returncode != 1 or not found or b"^ " not in done.stdout:
        raise ValueError("status %d, told %r" % (done.returncode, done.stdout[:300]))
    return int(found.group(1)), int(found.group(2)), found.group(3), int(found.group(4))


def is_right(data, line, fault, found):
    """Whether the fault is told, at a place of the file."""
    if not fault or not found:
        return not fault and not found
    lines = data.split(b"\n")
    has_place = 1 <= found[0] <= len(lines) and 1 <= found[1] <= len(lines[found[0] - 1]) + 1
    return has_place and found[3] == fault and line in (None, found[0]) and (found[2] == b"fault") == (line is not None)


def main():
    parser = argparse.ArgumentParser(description=__doc__, formatter_class=argparse.RawDescriptionHelpFormatter)
    parser.add_argument("program", metavar="PROGRAM")
    parser.add_argument("--runs", type=int, default=1000, metavar="N", help="how many inputs of each kind are tried")
    parser.add_argument("--seed", type=int, default=1, metavar="N")
    words = parser.parse_args()
    draw, counts, wrong = random.Random(words.seed), collections.Counter(), 0
    schedules, documents, drawing = inputs(".schedule"), inputs(".json"), fuzz.Drawing(draw)
    changes, changes_of_documents = fuzz.Changes(draw, schedules), fuzz.Changes(draw, documents)
    with tempfile.TemporaryDirectory() as folder:
        for run in range(2 * words.runs):
            if run % 2:
                kind, name, data = "line", "a.schedule", changes.changed(draw.choice(schedules))
                if data.lstrip(b" \t\n\r\f").startswith(b"{"):
                    continue
                line, fault = schedule_fault(data)
            else:
                right = draw.choice(documents) if draw.random() < 0.5 else drawing.document().encode()
                kind, name, data = "document", "a.json", changes_of_documents.changed_document(right)
                line, fault = document_fault(data)
            counts[kind, fault] += fault > 0
            try:
                found = told(words.program, os.path.join(folder, name), data)
                right = is_right(data, line, fault, found)
            except ValueError as why:
                found, right = why, False
            if not right:
                wrong += 1
                print("%s fault %d at line %s, but %s: %r" % (kind, fault, line, found, data[:300]))
    faults = ", ".join("%d %s fault %d" % (count, kind, fault) for (kind, fault), count in sorted(counts.items()) if fault)
    print("%s; %d wrong" % (faults, wrong))
    sys.exit(1 if wrong else 0)


if __name__ == "__main__":
    main()

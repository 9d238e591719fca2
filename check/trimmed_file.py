#!/usr/bin/env python3
"""Reads with SQLite a file of records that was trimmed: only votes at or above the slot are left, and every other key stays.

    check/trimmed_file.py TESTS

TESTS is crates/tests/out/tests_tests, which `rt test` builds there; `tools/unproved.py crates/tests TESTS --test` builds one without
proofs. The test `a_file_is_trimmed` puts records into a file through SQL, trims it below slot 700 and closes it. It runs in a folder of its own, where
SQLite, as Python has it, reads what it left. The keys are those of docs/FORMATS.md.
"""

import os
import sqlite3
import subprocess
import sys
import tempfile

TEST = "storages::tables::a_file_is_trimmed"
FILE = os.path.join("out", "trimmed", "node0.db")
# A promise, a round, and the vote at slot 700; the vote at slot 0 is gone.
LEFT = [("50", "616263"), ("52", ""), ("56000002BC", "67")]


def read(path):
    """What SQLite says of the file, and its records, by ascending keys."""
    connection = sqlite3.connect(path)
    checked = [row[0] for row in connection.execute("PRAGMA integrity_check")]
    records = connection.execute("SELECT hex(k), hex(v) FROM record ORDER BY k").fetchall()
    connection.close()
    return checked, records


def main():
    if len(sys.argv) != 2:
        sys.exit(__doc__)
    tests = os.path.abspath(sys.argv[1])
    with tempfile.TemporaryDirectory() as folder:
        subprocess.run([tests, TEST], cwd=folder, check=True)
        checked, left = read(os.path.join(folder, FILE))
    if checked != ["ok"] or left != LEFT:
        sys.exit("SQLite finds %r and reads %r, where %r was left" % (checked, left, LEFT))
    print("%d records, of which SQLite reads each" % len(left))


if __name__ == "__main__":
    main()

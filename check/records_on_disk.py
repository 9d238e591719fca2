#!/usr/bin/env python3
"""Runs of the program whose nodes keep their records in files.

    check/records_on_disk.py PROGRAM SCHEDULES [COUNT [SEED]]

PROGRAM is the built `mfpx`, SCHEDULES a folder of schedules, of which so many are drawn where COUNT says so; results that are in it
beside their inputs are passed over. Each schedule is run over an empty folder: it ends and prints as in memory, and leaves one file for
each node and nothing beside it, which Python's SQLite reads. The list that explains what it printed has the texts of the checkpoints there
(`one_log.py`, for up to 200 lines). A file that is no schedule leaves the folder empty. Run again it prints nothing, reports fault 55, ends
with 1, and leaves every file as it was. A folder that isn't there is `mfpx: device`.
"""
import os
import random
import sqlite3
import subprocess
import sys
import tempfile

import one_log

SHORT = 200


def run(program, schedule, *more):
    """The status of a run, and what it prints and tells."""
    done = subprocess.run([program, "replay", schedule, *more], capture_output=True, check=False)
    return done.returncode, done.stdout, done.stderr


# How the names of files end that say what is wanted.
WANTED = (".transcript", ".canonical", ".error", ".json", ".stdout", ".stderr", ".status")

IN_USE = (1, b"", b"mfpx: fault 55\n")
NO_FOLDER = (3, b"", b"mfpx: device\n")


def files_in(folder):
    """All files of the folder, by name."""
    found = {}
    for name in sorted(os.listdir(folder)):
        with open(os.path.join(folder, name), "rb") as file:
            found[name] = file.read()
    return found


def nodes_of(schedule):
    """How many nodes the schedule's first line names."""
    with open(schedule, "rb") as file:
        for line in file:
            if line.strip():
                return int(line.split()[1])
    return 0


def rows_of(path):
    """The rows of a file that nobody writes, read without a lock and without a file beside it."""
    connection = sqlite3.connect(f"file:{path}?immutable=1", uri=True)
    rows = connection.execute("SELECT k, v FROM record ORDER BY k").fetchall()
    connection.close()
    return rows


def number(data, at, size):
    """The number of so many bytes."""
    return int.from_bytes(data[at:at + size], "big")


def is_checkpoint(value):
    """Whether a record is a position, what was promised, and a snapshot text."""
    flag = value[4:5]
    promised = value[5:14] if flag == b"\1" else b""
    is_promise = flag == b"\0" or flag == b"\1" and number(promised, 0, 8) > 0 and number(promised, 8, 1) < 7
    return 0 < number(value, 0, 4) <= 65536 and is_promise and is_snapshot(value[5 + len(promised):])


def is_snapshot(text):
    """Whether a text lists features by rising ids, and the last number and reply of rising clients; points aren't looked at."""
    at, last = 2, b""
    for _ in range(number(text, 0, 2)):
        behind = at + 1 + number(text, at, 1)
        if text[at + 1:behind] <= last:
            return False
        at, last = behind + 3 + 24 * number(text, behind + 1, 2), text[at + 1:behind]
    clients = [text[i:i + 10] for i in range(at + 2, len(text), 10)]
    rise = all(client[0] < after[0] for client, after in zip(clients, clients[1:]))
    are_right = all(len(client) == 10 and number(client, 1, 8) > 0 and client[9] in (0, 21, 22, 23, 24) for client in clients)
    return at + 2 <= len(text) and number(text, at, 2) == len(clients) and rise and are_right


def are_records(rows):
    """Whether keys and values have the forms of docs/FORMATS.md."""
    for key, value in rows:
        if key == b"C":
            good = is_checkpoint(value)
        elif key in (b"P", b"R"):
            good = len(value) == (9 if key == b"P" else 8)
        elif key == b"C":
            good = len(value) >= 9
        else:
            good = len(key) == 5 and key[:1] == b"V" and len(value) > 9
        if not good:
            return False
    return True


def is_explained(schedule, printed, folder):
    """Whether one list explains what was printed and the checkpoints in the folder. Long runs, and undecided ones, are passed over."""
    with open(schedule, "rb") as file:
        text = file.read()
    if text.count(b"\n") > SHORT:
        return True
    try:
        one_log.explain(text, printed.decode(), folder=folder)
    except one_log.Unexplained:
        return False
    except one_log.Undecided:
        pass
    return True


def failures_of(program, schedule):
    """What is wrong with the schedule's runs over a folder."""
    told = []
    alone = run(program, schedule)
    # whether a run begins at all: a line that can't be read has one of the faults 1 to 6
    begins = alone[0] == 0 or int(alone[2].split()[-1]) > 6
    with tempfile.TemporaryDirectory() as folder:
        for option in (["--db", folder], [f"--db={folder}"]):
            for name in os.listdir(folder):
                os.remove(os.path.join(folder, name))
            if run(program, schedule, *option) != alone:
                told.append("another end than in memory")
        names = [f"node{i}.db" for i in range(nodes_of(schedule))] if begins else []
        before = files_in(folder)
        if sorted(before) != names:
            return told + [f"left {sorted(before)}"]
        rows = [rows_of(os.path.join(folder, name)) for name in names]
        if not all(are_records(of_node) for of_node in rows):
            told.append("a record of another form")
        if alone[0] == 0 and not is_explained(schedule, alone[1], folder):
            told.append("no list explains it")
        again = run(program, schedule, "--db", folder)
        if again != (IN_USE if any(rows) else alone):
            told.append(f"again: {again}")
        if any(rows) and files_in(folder) != before:
            told.append(f"a file was changed, or one came: {sorted(files_in(folder))}")
        if run(program, schedule, "--db", os.path.join(folder, "none")) != (NO_FOLDER if begins else alone):
            told.append("no folder is no device")
    return told


def main():
    program, folder, *drawn = sys.argv[1:]
    failed = 0
    names = [n for n in sorted(os.listdir(folder)) if n != "words" and not n.endswith(WANTED)]
    if drawn:
        names = random.Random(int(drawn[-1])).sample(names, min(int(drawn[0]), len(names)))
    for name in names:
        schedule = os.path.join(folder, name)
        for told in failures_of(os.path.abspath(program), schedule):
            failed += 1
            print(f"{name}: {told}")
    print(f"{len(names)} schedules, {failed} failed")
    return 1 if failed else 0


if __name__ == "__main__":
    sys.exit(main())

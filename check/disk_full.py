#!/usr/bin/env python3
"""A run whose nodes keep their records in files, on a device that gets full.

    check/disk_full.py PROGRAM [FOLDER]

PROGRAM is the built `mfpx`; FOLDER, where it is given, is on a small file system of its own.

Without FOLDER no file may grow past a limit, for ever greater limits: the system refuses the write then, as it does on a full device.
Nodes stop with 46, and nothing that was printed is lost: whatever a node learnt has its vote in the files of a majority, and a node that
stopped holds the records of some beginning of the undisturbed run. With FOLDER, which is emptied before each run, the same is asked
while a file of ballast leaves it ever more room.
"""
import os
import resource
import shutil
import signal
import subprocess
import sys
import tempfile

from kill_at_random import NODES, left_by, records

REQUESTS = 40
KILOBYTE = 1024
# The limits of a file's size, in kilobytes. A log is given room for 256 when its file is made, so that none can be made below 272, and as
# much again, then 128 more, whenever that is full.
LIMITS = [8, 64, 128, 192, 256, *range(272, 848, 16)]


def whole_run():
    """One leader, many requests, each delivered at once."""
    lines = ["nodes 3", "timeout 0", "flush"]
    for number in range(1, REQUESTS + 1):
        lines += [f"submit 0 7 {number} remove bus-{number}", "flush"]
    return lines


def limited(limit):
    """What a process does before it begins: no file grows past so many bytes, and a write that would is refused."""
    def set_limit():
        signal.signal(signal.SIGXFSZ, signal.SIG_IGN)
        resource.setrlimit(resource.RLIMIT_FSIZE, (limit, limit))
    return set_limit


def votes_of(rows):
    """The requests that the records hold votes for, as (slot, client, number)."""
    found = set()
    for key, value in rows:
        if key[:1] == b"V" and value[9] == 1:
            found.add((int.from_bytes(key[1:], "big"), value[10], int.from_bytes(value[11:19], "big")))
    return found


def learnt_of(transcript):
    """What was learnt, as (slot, client, number)."""
    found = set()
    for line in transcript.splitlines():
        words = line.split()
        if words[0] == "learn" and words[3] != "noop":
            client, number = words[3].split(":")
            found.add((int(words[2]), int(client), int(number)))
    return found


def wrong_of(done, folder, beginnings):
    """What is wrong with a run, and how many nodes stopped."""
    if done.returncode == 3 and done.stdout == b"" and done.stderr == b"mfpx: device\n":
        return [], 0
    if done.returncode != 0:
        return [f"status {done.returncode}, {done.stderr}"], 0
    transcript = done.stdout.decode()
    left = [records(folder, node) for node in range(NODES)]
    told = [f"{vote} was learnt and is lost" for vote in learnt_of(transcript)
            if sum(vote in votes_of(rows) for rows in left) * 2 <= NODES]
    told += [f"node {node} holds the records of no beginning" for node in range(NODES)
             if left[node] not in [beginning[node] for beginning in beginnings]]
    stops = [line for line in transcript.splitlines() if line.startswith("stop ")]
    told += [f"told {line}" for line in stops if not line.endswith(" 46")]
    return told, len(stops)


def cases(folder):
    """What a run is given in turn: a folder, and what its process does before it begins."""
    for limit in LIMITS:
        if folder is None:
            with tempfile.TemporaryDirectory() as fresh:
                yield fresh, limited(limit * KILOBYTE)
        else:
            for name in os.listdir(folder):
                os.remove(os.path.join(folder, name))
            room = shutil.disk_usage(folder).free - limit * KILOBYTE * NODES
            with open(os.path.join(folder, "ballast"), "wb") as ballast:
                ballast.write(b"\0" * max(room, 0))
            yield folder, None


def main():
    program = os.path.abspath(sys.argv[1])
    lines = whole_run()
    beginnings = [left_by(program, lines[:length])[1] for length in range(1, len(lines) + 1)]
    with tempfile.NamedTemporaryFile("w", suffix=".schedule") as schedule:
        schedule.write("\n".join(lines) + "\n")
        schedule.flush()
        wrong, runs, stopped = 0, 0, 0
        for folder, prepare in cases(sys.argv[2] if len(sys.argv) > 2 else None):
            words = [program, "replay", schedule.name, "--db", folder]
            done = subprocess.run(words, capture_output=True, check=False, preexec_fn=prepare)
            if os.path.exists(os.path.join(folder, "ballast")):
                os.remove(os.path.join(folder, "ballast"))
            told, stops = wrong_of(done, folder, beginnings)
            runs, stopped, wrong = runs + 1, stopped + bool(stops), wrong + bool(told)
            for line in told:
                print(line)
    print(f"{runs} runs, {stopped} of them with nodes that stopped, {wrong} wrong")
    return 1 if wrong else 0


if __name__ == "__main__":
    sys.exit(main())

#!/usr/bin/env python3
"""Watches what three mfpxd processes ask of the system, and looks for something sent before the sync that it rests on.

    check/sync_first.py MFPXD [--requests N]

Each process runs under strace. One client submits requests. In each trace no byte goes to a socket while a file of records has a write
that no sync has answered for. It ends with 1 where one does, or where a trace has no sync or nothing sent; with 2 without strace.
"""
import argparse
import os
import re
import shutil
import signal
import subprocess
import sys
import tempfile
import time

from served import Nodes, ask

CALLS = "trace=openat,close,write,writev,pwrite64,pwritev,sendto,sendmsg,fsync,fdatasync,socket,accept,accept4"
CALL = re.compile(r"^(?:\d+ +)?(\w+)\((.*)\) += (-?\d+)")
WRITES = ("write", "writev", "pwrite64", "pwritev")


class Traced(Nodes):
    """Nodes whose calls of the system are listed, each in a file."""

    def start(self, node, *more):
        words = ["strace", "-f", "-e", CALLS, "-s", "0", "-o", self.trace(node), self.program, *self.words(node), *more]
        with open(f"{self.folder}/log{node}", "a") as log:
            self.running[node] = subprocess.Popen(words, stdout=log, stderr=log)

    @staticmethod
    def end_traced(strace):
        """Ends the process that is traced: strace then writes the rest of its list and ends too."""
        with open(f"/proc/{strace.pid}/task/{strace.pid}/children") as it:
            for process in it.read().split():
                os.kill(int(process), signal.SIGKILL)
        strace.wait()

    def trace(self, node):
        return f"{self.folder}/trace{node}"


class Counts:
    """What a trace has."""

    def __init__(self):
        self.writes = self.syncs = self.sent = 0
        self.early = []


def look(path):
    """Follows the files of records and the sockets of a trace."""
    kinds, unsynced, counts = {}, set(), Counts()
    with open(path, errors="replace") as lines:
        for number, line in enumerate(lines, 1):
            found = CALL.match(line)
            if not found:
                continue
            call, words, answer = found[1], found[2], int(found[3])
            if call == "openat":
                # (the index beside a log is rebuilt from it, and never synced)
                is_records = ".db" in words and "-shm" not in words and ".node" not in words
                kinds[answer] = "records" if is_records else "other"
            elif call in ("socket", "accept", "accept4"):
                kinds[answer] = "socket"
            follow(call, int(re.match(r"\d*", words)[0] or -1), answer, kinds, unsynced, counts, f"{number}: {line.strip()}")
    return counts


def follow(call, file, answer, kinds, unsynced, counts, line):
    kind = kinds.get(file)
    if call == "close":
        unsynced.discard(file)
    elif call in WRITES and kind == "records" and answer > 0:
        counts.writes += 1
        unsynced.add(file)
    elif call in ("fsync", "fdatasync") and answer == 0:
        counts.syncs += kind == "records"
        unsynced.discard(file)
    elif kind == "socket" and (call in WRITES or call.startswith("send")) and answer > 0:
        counts.sent += 1
        if unsynced:
            counts.early.append(line)


def load(nodes, requests):
    """Submits requests at each node in turn, and waits for each reply."""
    document = (
        '{"type":"Feature","id":"bus-%d","temporalGeometry":{"type":"MovingPoint",'
        '"datetimes":["2020-01-01T00:00:00Z"],"coordinates":[[0,0]],"interpolation":"Linear"}}'
    )
    for number in range(1, requests + 1):
        port = nodes.ports[number % len(nodes.ports)]
        told = ask(port, f"submit 7 {number} put {document % (number % 200)}")
        if not told.startswith(f"reply 7:{number} 0 "):
            sys.exit(f"request {number} was told: {told}")


def main():
    words = argparse.ArgumentParser(description=__doc__, formatter_class=argparse.RawDescriptionHelpFormatter)
    words.add_argument("mfpxd")
    words.add_argument("--requests", type=int, default=200)
    given = words.parse_args()
    if not shutil.which("strace"):
        print("strace is missing: it is a package of the system", file=sys.stderr)
        return 2
    with tempfile.TemporaryDirectory() as folder:
        nodes = Traced(os.path.abspath(given.mfpxd), 3, folder)
        try:
            time.sleep(2)
            load(nodes, given.requests)
        finally:
            for it in nodes.running:
                nodes.end_traced(it)
        is_well = True
        for node in range(3):
            counts = look(nodes.trace(node))
            print(f"node {node}: {counts.writes} writes of records, {counts.syncs} syncs, {counts.sent} sends, {len(counts.early)} before their sync")
            for line in counts.early[:5]:
                print(f"  {line}")
            is_well = is_well and not counts.early and counts.syncs > 0 and counts.sent > 0
    return 0 if is_well else 1


if __name__ == "__main__":
    sys.exit(main())

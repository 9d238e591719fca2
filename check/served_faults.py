#!/usr/bin/env python3
"""Has a cluster of mfpxd processes meet what machines do to it, one case after another.

    check/served_faults.py MFPXD [--seconds N] [--seed N]

    relay       packets are lost, repeated, reordered, changed and forged on the way, under load and kills, for --seconds
    files       databases and identities that are deleted, swapped, copied or second-hand are refused, and one database isn't used twice
    begun       a first start that is cut off, before the database is made or behind that, is made again, but not once the node has served
    key         a key that others may read, or that is short, is refused; a node with another key hears and tells nothing
    full        a database can't grow: its process ends with 3, the others go on, and it comes back
    sync        a sync fails (strace injects EIO): the same

It ends with 1 where a case ends otherwise, and says how.
"""
import argparse
import os
import random
import resource
import shutil
import signal
import subprocess
import sys
import tempfile
import time

import served
from relay import Relay
from served import Nodes, ask, free_ports

DOCUMENT = (
    '{"type":"Feature","id":"%s","temporalGeometry":{"type":"MovingPoint",'
    '"datetimes":["2020-01-01T00:00:00Z"],"coordinates":[[0,0]],"interpolation":"Linear"}}'
)


class Relayed(Nodes):
    """Nodes each of which reaches the others through a relay."""

    def __init__(self, program, count, folder, seed):
        self.own = free_ports(count)
        pairs = [(sends, hears) for sends in range(count) for hears in range(count) if sends != hears]
        self.between = dict(zip(pairs, free_ports(len(pairs))))
        self.relay = Relay(self.between, self.own, seed)
        super().__init__(program, count, folder)

    def words(self, node):
        ports = [self.own[node] if other == node else self.between[node, other] for other in range(len(self.own))]
        words = super().words(node)
        words[words.index("--peers") + 1] = ",".join(f"127.0.0.1:{port}" for port in ports)
        return words


class CutOff(Nodes):
    """Nodes 1 and 2 of which find what a first start leaves that was cut off: 1 an empty database too, 2 none."""

    said = ()

    def start(self, node, *more):
        if more and node > 0:
            with open(self.key, "rb") as it:
                name = it.read(16).hex()
            with open(f"{self.folder}/node{node}.db.node", "w") as it:
                it.write(f"run {name}\nnode {node}\nnodes 3\nbegun\n")
            if node == 1:
                with open(f"{self.folder}/node1.db", "w"):
                    pass
            other, right = ([], ["--new"]) if node == 2 else (["--new"], [])
            self.said += (refused(self, node, 2, *other),)
            more = right
        super().start(node, *more)


def refused(nodes, node, status, *more):
    """Starts a node that is to end by itself with the status, and answers what it said last."""
    return ends(status, [nodes.program, *nodes.words(node), *more])


def ends(status, words):
    done = subprocess.run(words, capture_output=True, text=True, timeout=20, check=False)
    if done.returncode != status:
        sys.exit(f"{words} ended with {done.returncode}, not {status}: {done.stderr}")
    return done.stderr.strip().split("\n")[-1]


def used_twice(nodes, node):
    """Starts a node once more, with ports of its own, over the database that is in use."""
    words, ports = nodes.words(node), free_ports(len(nodes.ports) + 1)
    words[words.index("--listen") + 1] = f"127.0.0.1:{ports.pop()}"
    words[words.index("--peers") + 1] = ",".join(f"127.0.0.1:{port}" for port in ports)
    return ends(3, [nodes.program, *words])


def put(nodes, node, number):
    told = ask(nodes.ports[node], f"submit 9 {number} put {DOCUMENT % f'tram-{number % 100}'}")
    if not told.startswith(f"reply 9:{number} 0 "):
        sys.exit(f"request {number} was told: {told}")


def relay(program, folder, seconds, seed):
    nodes = Relayed(program, 3, folder, seed)
    try:
        time.sleep(1)
        print(served.judged(nodes, seconds))
        print("packets:", dict(nodes.relay.done))
    finally:
        nodes.end()


def files(program, folder, _seconds, _seed):
    nodes = Nodes(program, 3, folder)
    try:
        time.sleep(1)
        for number in range(1, 20):
            put(nodes, number % 3, number)
        again = used_twice(nodes, 0)
        nodes.kill(0)
        nodes.kill(1)
        own, other = (f"{folder}/node{node}.db" for node in (0, 1))
        said = [again, refused(nodes, 0, 2, "--new")]
        for lost in (own, f"{own}.node"):
            os.rename(lost, f"{folder}/aside")
            said.append(refused(nodes, 0, 2))
            said.append(refused(nodes, 0, 2, "--new"))
            os.rename(f"{folder}/aside", lost)
        for part in (".node", ""):
            shutil.copy(f"{own}{part}", f"{folder}/aside{part}")
            shutil.copy(f"{other}{part}", f"{own}{part}")
        said.append(refused(nodes, 0, 2))
        for part in (".node", ""):
            shutil.copy(f"{folder}/aside{part}", f"{own}{part}")
        nodes.start(0)
        nodes.start(1)
        put(nodes, 2, 20)
        served.come_together(nodes)
        print(*said, sep="\n")
    finally:
        nodes.end()


def begun(program, folder, _seconds, _seed):
    nodes = CutOff(program, 3, folder)
    try:
        time.sleep(1)
        for number in range(1, 10):
            put(nodes, number % 3, number)
        print(*nodes.said, sep="\n")
        for node in (1, 2):
            nodes.kill(node)
            own = f"{folder}/node{node}.db"
            os.rename(own, f"{folder}/aside")
            for more in ((), ("--new",)):
                print(refused(nodes, node, 2, *more))
            os.rename(f"{folder}/aside", own)
            nodes.start(node)
            served.come_together(nodes)
    finally:
        nodes.end()


def key(program, folder, _seconds, _seed):
    nodes = Nodes(program, 3, folder)
    try:
        time.sleep(1)
        put(nodes, 0, 1)
        nodes.kill(2)
        os.chmod(nodes.key, 0o640)
        print(refused(nodes, 2, 2))
        os.chmod(nodes.key, 0o600)
        with open(nodes.key, "rb") as it:
            right = it.read()
        for wrong, status in ((right[:40], 2), (b"x" * 16 + right[16:], 2)):
            with open(nodes.key, "wb") as it:
                it.write(wrong)
            print(refused(nodes, 2, status))
        # The run's name, and another key: its packets are dropped, and so are those that it gets.
        with open(nodes.key, "wb") as it:
            it.write(right[:16] + b"y" * 32)
        nodes.start(2)
        put(nodes, 0, 2)
        time.sleep(3)
        told = ask(nodes.ports[2], "query count")
        if "count 0" not in told:
            sys.exit(f"a node with another key answers: {told}")
        nodes.kill(2)
        with open(nodes.key, "wb") as it:
            it.write(right)
        nodes.start(2)
        served.come_together(nodes)
    finally:
        nodes.end()


def outlived(nodes, node, begin):
    """Node `node` was started so that its storage fails in time: it ends with 3, the others go on, and it comes back."""
    number = begin
    while nodes.running[node].poll() is None:
        put(nodes, (node + 1) % 3, number)
        number += 1
        if number > begin + 5000:
            sys.exit("the storage never failed")
    status = nodes.running[node].returncode
    if status != 3:
        sys.exit(f"the node whose storage failed ended with {status}")
    for _ in range(20):
        put(nodes, (node + 1) % 3, number)
        number += 1
    nodes.start(node)
    position = served.come_together(nodes)
    with open(f"{nodes.folder}/log{node}") as log:
        stop = [line for line in log.read().split("\n") if "stop" in line][-1]
    print(f"{stop}; after {number - begin} requests; all came to position {position}")


def full(program, folder, _seconds, _seed):
    def limit():
        signal.signal(signal.SIGXFSZ, signal.SIG_IGN)
        resource.setrlimit(resource.RLIMIT_FSIZE, (200_000, 200_000))

    nodes = Nodes(program, 3, folder)
    try:
        time.sleep(1)
        put(nodes, 0, 1)
        nodes.kill(2)
        with open(f"{folder}/log2", "a") as log:
            nodes.running[2] = subprocess.Popen([program, *nodes.words(2)], stdout=log, stderr=log, preexec_fn=limit)
        outlived(nodes, 2, 2)
    finally:
        nodes.end()


def sync(program, folder, _seconds, _seed):
    if not shutil.which("strace"):
        sys.exit("strace is missing: it is a package of the system")
    nodes = Nodes(program, 3, folder)
    try:
        time.sleep(1)
        put(nodes, 0, 1)
        nodes.kill(2)
        strace = ["strace", "-f", "-o", "/dev/null", "-e", "trace=fdatasync", "-e", "inject=fdatasync:error=EIO:when=40"]
        with open(f"{folder}/log2", "a") as log:
            nodes.running[2] = subprocess.Popen([*strace, program, *nodes.words(2)], stdout=log, stderr=log)
        outlived(nodes, 2, 2)
    finally:
        nodes.end()


def main():
    words = argparse.ArgumentParser(description=__doc__, formatter_class=argparse.RawDescriptionHelpFormatter)
    words.add_argument("mfpxd")
    words.add_argument("--seconds", type=float, default=20)
    words.add_argument("--seed", type=int, default=1)
    given = words.parse_args()
    random.seed(given.seed)
    for case in (relay, files, begun, key, full, sync):
        print(f"{case.__name__}:", flush=True)
        with tempfile.TemporaryDirectory() as folder:
            case(os.path.abspath(given.mfpxd), folder, given.seconds, given.seed)


if __name__ == "__main__":
    main()

#!/usr/bin/env python3
"""Runs a cluster of mfpxd processes under load, kills them at random and starts them again.

    check/served.py MFPXD [--seconds N] [--seed N] [--nodes N] [--slots N]

Clients submit requests, each the next number of its own, and try again elsewhere where no reply comes. Others ask each node over and
over. Each answer is compared with every other one to the same query at the same position. At the end all nodes come to one position,
and each request that was acknowledged is found in each node's documents, once, in order.

A cluster's log has 65,536 slots, so that a cluster ends once its clients saw the position of --slots, and a new one is begun, of the next
seed, until the seconds have passed. With 65,536 each log is filled, and each client goes on until it is told so.

It ends with 1 where two answers differ, where a request is lost or found twice, or where the nodes don't come to one position.
"""
import argparse
import collections
import itertools
import json
import os
import random
import signal
import socket
import subprocess
import sys
import tempfile
import time

CLIENTS = 6
AGAIN = 1.0
# A feature holds so many instants at most; a client goes on with another one then.
INSTANTS = 800
# A log has so many slots. When it is full each request is refused with this code.
SLOTS = 65_536
LOG_FULL = "42"
# So far a log is filled where nothing else is said.
MOST_SLOTS = 50_000
# No cluster is begun for less than so many seconds.
SHORTEST = 10


class Nodes:
    """The processes, each with a folder for its database."""

    def __init__(self, program, count, folder):
        self.program, self.folder, self.killed = program, folder, 0
        ports = free_ports(2 * count)
        self.peers = ",".join(f"127.0.0.1:{port}" for port in ports[:count])
        self.ports = ports[count:]
        self.running = [None] * count
        self.key = f"{folder}/key"
        with open(os.open(self.key, os.O_WRONLY | os.O_CREAT, 0o600), "wb") as it:
            it.write(os.urandom(48))
        for node in range(count):
            self.start(node, "--new")

    def words(self, node):
        words = ["--id", str(node), "--peers", self.peers, "--listen", f"127.0.0.1:{self.ports[node]}"]
        return words + ["--db", f"{self.folder}/node{node}.db", "--key", self.key]

    def start(self, node, *more):
        with open(f"{self.folder}/log{node}", "a") as log:
            self.running[node] = subprocess.Popen([self.program, *self.words(node), *more], stdout=log, stderr=log)

    def kill(self, node):
        self.running[node].send_signal(signal.SIGKILL)
        self.running[node].wait()
        self.running[node] = None
        self.killed += 1

    def end(self):
        for it in self.running:
            if it is not None:
                it.kill()
                it.wait()

    def ended(self):
        return [node for node, it in enumerate(self.running) if it is not None and it.poll() is not None]


def free_ports(count):
    sockets = [socket.socket() for _ in range(count)]
    for it in sockets:
        it.bind(("127.0.0.1", 0))
    ports = [it.getsockname()[1] for it in sockets]
    for it in sockets:
        it.close()
    return ports


class Lines:
    """A connection to a node, which may be down."""

    def __init__(self, port):
        self.port, self.socket, self.rest = port, None, b""

    def send(self, text):
        try:
            if self.socket is None:
                self.socket = socket.create_connection(("127.0.0.1", self.port), timeout=0.5)
                self.socket.setblocking(False)
                self.rest = b""
            self.socket.sendall(text.encode() + b"\n")
            return True
        except OSError:
            self.close()
            return False

    def close(self):
        if self.socket is not None:
            self.socket.close()
        self.socket = None

    def read(self):
        if self.socket is None:
            return []
        try:
            came = self.socket.recv(1 << 20)
        except BlockingIOError:
            return []
        except OSError:
            came = b""
        if not came:
            self.close()
            return []
        *lines, self.rest = (self.rest + came).split(b"\n")
        return [line.decode() for line in lines]


class Client:
    """Submits one request after another."""

    def __init__(self, number, ports):
        self.id, self.ports, self.number, self.again, self.codes = number, ports, 1, 0, collections.Counter()
        self.position, self.is_over = 0, False
        self.move()

    def move(self):
        self.lines = Lines(random.choice(self.ports))
        self.submit()

    def submit(self):
        self.at = time.monotonic()
        self.lines.send(f"submit {self.id} {self.number} {operation(self.id, self.number)}")

    def step(self):
        for line in self.lines.read():
            word, *rest = line.split()
            if word not in ("reply", "refuse"):
                sys.exit(f"client {self.id} was told: {line}")
            if rest[0] != f"{self.id}:{self.number}":
                continue
            self.codes[f"{word} {rest[1]}"] += 1
            if word == "reply":
                self.position = int(rest[2])
            self.is_over |= word == "refuse" and rest[1] == LOG_FULL
            # 31: it was executed before, and the reply was lost.
            if word == "reply" and rest[1] in ("0", "31"):
                self.number += 1
                self.submit()
        if not self.is_over and time.monotonic() - self.at > AGAIN:
            self.again += 1
            self.lines.close()
            self.move()


def feature(client, number):
    return f"bus-{client}-{number // INSTANTS}"


def instant(number):
    at = number % INSTANTS
    return f"2020-01-01T00:{at // 60:02d}:{at % 60:02d}Z"


def operation(client, number):
    if number == 1 or number % INSTANTS == 0:
        document = {
            "type": "Feature",
            "id": feature(client, number),
            "temporalGeometry": {
                "type": "MovingPoint",
                "datetimes": [instant(number)],
                "coordinates": [[number, 0]],
                "interpolation": "Linear",
            },
        }
        return f"put {json.dumps(document, separators=(',', ':'))}"
    return f"append {feature(client, number)} {instant(number)} {number} {-number}"


class Watcher:
    """Asks a node, over and over, and compares what it answers."""

    def __init__(self, port, seen):
        self.lines, self.seen, self.asked, self.answers, self.compared = Lines(port), seen, [], 0, 0

    def step(self):
        for line in self.lines.read():
            _, position, text = line.split(" ", 2)
            key = self.asked.pop(0), int(position)
            self.answers += 1
            if key in self.seen:
                self.compared += 1
                if self.seen[key] != text:
                    sys.exit(f"two answers at position {position} to {key[0]}:\n{text}\n{self.seen[key]}")
            self.seen[key] = text
        if self.lines.socket is None:
            self.asked = []
        if not self.asked:
            query = random.choice(QUERIES)
            if self.lines.send(query):
                self.asked.append(query)


QUERIES = ["query count", "query within 2020-01-01T00:00:00Z 2020-01-01T01:00:00Z -500 -500 500 500"]
QUERIES += [f"query at bus-{client}-0 2020-01-01T00:00:05.500Z" for client in range(CLIENTS)]
QUERIES += [f"query cut bus-{client}-0 2020-01-01T00:00:01Z 2020-01-01T00:00:04Z" for client in range(CLIENTS)]


def ask(port, text):
    with socket.create_connection(("127.0.0.1", port), timeout=30) as it:
        it.sendall(text.encode() + b"\n")
        told = b""
        while not told.endswith(b"\n"):
            more = it.recv(1 << 20)
            if not more:
                sys.exit(f"port {port} said nothing to: {text}")
            told += more
    return told.decode().rstrip("\n")


def goes_on(clients, slots):
    """Whether the log isn't filled so far yet. Where it is to be filled, each client is to be told that it is full."""
    if slots >= SLOTS:
        return not all(it.is_over for it in clients)
    return max(it.position for it in clients) < slots


def run(nodes, seconds, slots):
    """The load, and kills, for so long, or until the log is filled so far."""
    seen = {}
    clients = [Client(number, nodes.ports) for number in range(CLIENTS)]
    watchers = [Watcher(port, seen) for port in nodes.ports]
    end, next_kill, down = time.monotonic() + seconds, time.monotonic() + 3, {}
    while time.monotonic() < end and goes_on(clients, slots):
        for it in clients + watchers:
            it.step()
        now = time.monotonic()
        for node in [node for node, at in down.items() if at <= now]:
            nodes.start(node)
            del down[node]
        if nodes.ended():
            sys.exit(f"nodes ended by themselves: {nodes.ended()}")
        if next_kill < now < end - 3 and not down:
            count = len(nodes.ports)
            killed = random.sample(range(count), random.choice([1, 1, 1, 2, count]))
            for node in killed:
                nodes.kill(node)
                down[node] = now + random.choice([0, 0.3, 1.0])
            next_kill = now + random.choice([1.0, 2.0, 4.0])
        time.sleep(0.001)
    for node in down:
        nodes.start(node)
    return clients, watchers


def come_together(nodes):
    """Waits until all nodes are at one position, up to which they have seen votes, and answers it."""
    end = time.monotonic() + 120
    while time.monotonic() < end:
        try:
            told = [ask(port, "status").split() for port in nodes.ports]
        except OSError:
            time.sleep(0.2)
            continue
        places = {int(it[4]) for it in told} | {int(it[6]) for it in told}
        waiting = sum(int(it[10]) for it in told)
        if len(places) == 1 and waiting == 0:
            return places.pop()
        time.sleep(0.2)
    sys.exit(f"the nodes don't come to one position: {told}")


def found(nodes, client, position):
    """The numbers of a client's requests that the documents hold."""
    numbers = []
    for at in range(client.number // INSTANTS + 1):
        told = {ask(port, f"query get bus-{client.id}-{at} from {position}") for port in nodes.ports}
        texts = {it.split(" ", 2)[2] for it in told}
        if len(texts) != 1:
            sys.exit(f"documents of bus-{client.id}-{at} differ: {told}")
        text = texts.pop()
        if text.startswith("get "):
            coordinates = json.loads(text[4:])["temporalGeometry"]["coordinates"]
            numbers += [x for x, _ in coordinates]
    return numbers


def judged(nodes, seconds, slots=MOST_SLOTS):
    """Runs the load for so long, looks for what was lost or done twice, and answers what there was, in words."""
    try:
        clients, watchers = run(nodes, seconds, slots)
        position = come_together(nodes)
        for client in clients:
            numbers = found(nodes, client, position)
            acknowledged = client.number - 1
            if numbers != list(range(1, len(numbers) + 1)) or not acknowledged <= len(numbers) <= acknowledged + 1:
                sys.exit(f"client {client.id}: {acknowledged} acknowledged, found {numbers}")
    except SystemExit:
        for node in range(len(nodes.ports)):
            with open(f"{nodes.folder}/log{node}") as log:
                print(f"node {node}:", *log.read().split("\n")[-12:], sep="\n  ", file=sys.stderr)
        raise
    requests, again = sum(it.number - 1 for it in clients), sum(it.again for it in clients)
    answers, compared = sum(it.answers for it in watchers), sum(it.compared for it in watchers)
    codes = dict(sum((it.codes for it in clients), collections.Counter()))
    return (
        f"{nodes.killed} kills, {requests} requests acknowledged and found once, {again} tried again,\n"
        f"{answers} answers, {compared} of them compared; position {position}; codes {codes}"
    )


def run_cluster(given, seed, seconds):
    """One cluster."""
    random.seed(seed)
    with tempfile.TemporaryDirectory() as folder:
        nodes = Nodes(os.path.abspath(given.mfpxd), given.nodes, folder)
        try:
            time.sleep(1)
            print(f"seed {seed}: {judged(nodes, seconds, given.slots)}", flush=True)
        finally:
            nodes.end()


def main():
    words = argparse.ArgumentParser(description=__doc__, formatter_class=argparse.RawDescriptionHelpFormatter)
    words.add_argument("mfpxd")
    words.add_argument("--seconds", type=float, default=20)
    words.add_argument("--seed", type=int, default=1)
    words.add_argument("--nodes", type=int, default=3)
    words.add_argument("--slots", type=int, default=MOST_SLOTS)
    given = words.parse_args()
    end = time.monotonic() + given.seconds
    for seed in itertools.count(given.seed):
        run_cluster(given, seed, end - time.monotonic())
        if end - time.monotonic() < SHORTEST:
            return


if __name__ == "__main__":
    main()

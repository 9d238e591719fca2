#!/usr/bin/env python3
"""Times three mfpxd processes, and three of etcd on the same disk where it is installed.

    bench/serving.py MFPXD [--seconds N] [--slots N]

Requests a second and their latencies, with 1 and with 32 connections that each have one request under way, over all three nodes; idle
processor time; how long a request takes whose leader was killed; and how long a node takes that was down while --slots were filled.
A request is an append of one instant; to etcd, a put of as many bytes through its JSON gateway. Runs take turns, three of each.
"""
import argparse
import base64
import os
import selectors
import shutil
import socket
import subprocess
import sys
import tempfile
import time

sys.path.insert(0, os.path.join(os.path.dirname(os.path.abspath(__file__)), "..", "check"))
from served import Nodes, ask, free_ports, operation  # noqa: E402

TURNS = 3


class Etcd:
    """Three members of etcd, over folders of their own."""

    def __init__(self, folder):
        ports = free_ports(6)
        self.ports, peers = ports[:3], ports[3:]
        cluster = ",".join(f"n{i}=http://127.0.0.1:{port}" for i, port in enumerate(peers))
        self.running = []
        for i, (port, peer) in enumerate(zip(self.ports, peers)):
            words = ["etcd", "--name", f"n{i}", "--data-dir", f"{folder}/etcd{i}", "--log-level", "error"]
            for kind, at in (("client", port), ("peer", peer)):
                words += [f"--listen-{kind}-urls", f"http://127.0.0.1:{at}"]
            words += ["--advertise-client-urls", f"http://127.0.0.1:{port}", "--initial-advertise-peer-urls", f"http://127.0.0.1:{peer}"]
            words += ["--initial-cluster", cluster]
            self.running.append(subprocess.Popen(words, stdout=subprocess.DEVNULL, stderr=subprocess.DEVNULL))


class Line:
    """A connection to a node of mfpxd: one client, which counts upwards."""

    def __init__(self, port, client):
        self.port, self.client, self.number = port, client, int(ask(port, f"last {client}").split()[2])

    def request(self):
        self.number += 1
        return f"submit {self.client} {self.number} {operation(self.client, self.number)}\n".encode()

    @staticmethod
    def is_whole(came):
        if came.endswith(b"\n") and not came.startswith(b"reply"):
            sys.exit(f"a client was told: {came.decode()}")
        return came.endswith(b"\n")


class Put:
    """A connection to a member of etcd."""

    def __init__(self, port, client):
        self.port, self.client, self.number = port, client, 0

    def request(self):
        self.number += 1
        key, value = (base64.b64encode(it).decode() for it in (b"%d/%d" % (self.client, self.number), b"x" * 50))
        body = f'{{"key":"{key}","value":"{value}"}}'
        return f"POST /v3/kv/put HTTP/1.1\r\nHost: x\r\nContent-Length: {len(body)}\r\n\r\n{body}".encode()

    @staticmethod
    def is_whole(came):
        head, gap, body = came.partition(b"\r\n\r\n")
        if gap and not head.startswith(b"HTTP/1.1 200"):
            sys.exit(f"etcd answered: {came.decode()}")
        if b"chunked" in head:
            return body.endswith(b"0\r\n\r\n")
        length = [int(it.split(b":")[1]) for it in head.split(b"\r\n") if it.lower().startswith(b"content-length")]
        return bool(gap) and bool(length) and len(body) >= length[0]


def load(sources, seconds):
    """Requests a second, and the latencies in milliseconds, of these connections."""
    waits, begun = selectors.DefaultSelector(), {}
    for it in sources:
        it.socket = socket.create_connection(("127.0.0.1", it.port))
        it.socket.setsockopt(socket.IPPROTO_TCP, socket.TCP_NODELAY, 1)
        it.came = b""
        waits.register(it.socket, selectors.EVENT_READ, it)
    start = time.perf_counter()
    for it in sources:
        begun[it] = time.perf_counter()
        it.socket.sendall(it.request())
    latencies, under_way = [], len(sources)
    while under_way:
        for key, _ in waits.select(10):
            it = key.data
            it.came += it.socket.recv(1 << 16)
            if not it.is_whole(it.came):
                continue
            now = time.perf_counter()
            latencies.append((now - begun[it]) * 1000)
            it.came = b""
            if now - start < seconds:
                begun[it] = now
                it.socket.sendall(it.request())
            else:
                under_way -= 1
                it.socket.close()
    return len(latencies) / (time.perf_counter() - start), sorted(latencies)


def told(name, rates):
    rate = max(it for it, _ in rates)
    latencies = sorted(one for _, it in rates for one in it)
    p50, p99 = (latencies[int(len(latencies) * part)] for part in (0.5, 0.99))
    print(f"{name}: {rate:.0f} requests a second, p50 {p50:.2f} ms, p99 {p99:.2f} ms", flush=True)
    return rate


def used(process):
    """Its processor time in seconds."""
    with open(f"/proc/{process.pid}/stat") as it:
        words = it.read().rsplit(")", 1)[1].split()
    return (int(words[11]) + int(words[12])) / os.sysconf("SC_CLK_TCK")


def settle(nodes):
    """Waits until all nodes that run are at one position, which it answers."""
    while True:
        positions = {ask(port, "status").split()[4] for port, it in zip(nodes.ports, nodes.running) if it}
        if len(positions) == 1:
            return int(positions.pop())
        time.sleep(0.01)


def fail_over(nodes):
    """In milliseconds, how long a request takes that is made as its leader is killed."""
    times = []
    for client in range(200, 205):
        settle(nodes)
        leader = int(next(it for it in (ask(port, "status").split()[8] for port in nodes.ports) if it != "none"))
        port = nodes.ports[(leader + 1) % 3]
        nodes.kill(leader)
        begun = time.perf_counter()
        ask(port, Line(port, client).request().decode().rstrip())
        times.append((time.perf_counter() - begun) * 1000)
        nodes.start(leader)
        time.sleep(1)
    return times


def catch_up(nodes, slots):
    """In seconds, how long a node takes that was down while so many slots were filled."""
    nodes.kill(2)
    first = settle(nodes)
    sources = [Line(nodes.ports[i % 2], 100 + i) for i in range(32)]
    while settle(nodes) < first + slots:
        load(sources, 2)
    position = settle(nodes)
    nodes.start(2)
    begun = time.perf_counter()
    time.sleep(0.05)
    while True:
        try:
            if int(ask(nodes.ports[2], "status").split()[4]) >= position:
                return time.perf_counter() - begun, position - first
        except OSError:
            pass
        time.sleep(0.005)


def time_requests(nodes, etcd, seconds):
    """Prints the requests a second of both, idle time, and how long a failover takes."""
    time.sleep(5)
    for count in (1, 32):
        ours, theirs = [], []
        for turn in range(TURNS):
            ours.append(load([Line(nodes.ports[i % 3], i) for i in range(count)], seconds))
            if etcd:
                theirs.append(load([Put(etcd.ports[i % 3], 100 * turn + i) for i in range(count)], seconds))
        rate = told(f"mfpxd, {count} connections", ours)
        if etcd:
            print(f"ratio {rate / told(f'etcd, {count} connections', theirs):.2f}", flush=True)
    before = [used(it) for it in nodes.running]
    time.sleep(10)
    print("idle, processor seconds in 10:", *(f"{used(it) - was:.2f}" for it, was in zip(nodes.running, before)), flush=True)
    print("failover:", *(f"{it:.0f} ms" for it in fail_over(nodes)), flush=True)


def end(cluster):
    for it in cluster.running:
        if it:
            it.kill()
            it.wait()


def main():
    words = argparse.ArgumentParser(description=__doc__, formatter_class=argparse.RawDescriptionHelpFormatter)
    words.add_argument("mfpxd")
    words.add_argument("--seconds", type=float, default=3)
    words.add_argument("--slots", type=int, default=20000)
    given = words.parse_args()
    program = os.path.abspath(given.mfpxd)
    with tempfile.TemporaryDirectory(dir=os.getcwd()) as folder:
        nodes, etcd = Nodes(program, 3, folder), Etcd(folder) if shutil.which("etcd") else None
        try:
            time_requests(nodes, etcd, given.seconds)
        finally:
            end(nodes)
            if etcd:
                end(etcd)
    # A log of its own, as 60,000 slots are nearly all of one.
    with tempfile.TemporaryDirectory(dir=os.getcwd()) as folder:
        nodes = Nodes(program, 3, folder)
        try:
            time.sleep(5)
            seconds, slots = catch_up(nodes, given.slots)
            print(f"a node that was down for {slots} slots caught up in {seconds:.2f} s", flush=True)
        finally:
            end(nodes)


if __name__ == "__main__":
    main()

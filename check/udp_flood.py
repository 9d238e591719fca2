#!/usr/bin/env python3
"""Floods the sockets of `mfpx loopback` with datagrams that it never sent, and judges what it prints.

    check/udp_flood.py [MFPX [RUNS]]     MFPX is crates/mfpx/out/mfpx where none is given

A client submits 4,000 requests to one leader, 64 at a time. While the program runs, its sockets of 127.0.0.1 are found in /proc and
sent noise, cut frames and frames of the protocol that nobody sent: a Decided with a no-op for a slot; a floor, and the snapshot of an
empty database there. Datagrams may be lost then, as the system's buffers overflow. So lines may be missing, and requests are refused (44) while too many wait. What is printed has to be
right all the same: no two nodes learn different commands for a slot and none learns one twice; only what was submitted is learnt, or
a no-op; and each reply is that of the commands learnt up to it, each request once (21, as there is no such feature; 31 and 32 by the
client's numbers).
"""

import os
import random
import socket
import subprocess
import sys
import tempfile

REQUESTS = 4000


def schedule():
    lines = ["nodes 3", "submit 0 7 1 remove bus-7", "timeout 0", "flush"]
    for number in range(2, REQUESTS + 1):
        lines += ["submit 0 7 %d remove bus-7" % number] + ["flush"] * (number % 64 == 0)
    return "\n".join(lines + ["flush"]) + "\n"


def sockets_of(pid):
    """The ports of the process's UDP sockets of 127.0.0.1."""
    try:
        held = {os.readlink("/proc/%d/fd/%s" % (pid, it)) for it in os.listdir("/proc/%d/fd" % pid)}
        with open("/proc/net/udp") as table:
            rows = [line.split() for line in table.readlines()[1:]]
    except OSError:
        return []
    return [int(row[1].split(":")[1], 16) for row in rows if row[1].startswith("0100007F") and "socket:[%s]" % row[9] in held]


def datagrams(draw):
    """Noise; a cut Prepare; a Decided from node 1 with a no-op for a slot; that it is behind, and a snapshot in one part."""
    slot, position = draw.randrange(REQUESTS), (REQUESTS + 1).to_bytes(4, "big")
    return (
        draw.randbytes(draw.randrange(64)),
        bytes.fromhex("4D500101000100"),
        bytes.fromhex("4D5001070100") + slot.to_bytes(4, "big") + b"\0",
        bytes.fromhex("4D50020A0100") + position,
        bytes.fromhex("4D5002090100") + position + bytes.fromhex("00000004 00000000 0004 00000000"),
    )


def flooded(path, file, draw):
    """The lines of one run under a flood, and how many datagrams were sent to it."""
    foreign = socket.socket(socket.AF_INET, socket.SOCK_DGRAM)
    foreign.setblocking(False)
    sent = 0
    with tempfile.TemporaryFile() as out:
        child = subprocess.Popen([path, "loopback", file], stdout=out)
        ports = []
        while child.poll() is None:
            ports = ports or sockets_of(child.pid)
            for port in ports:
                for bytes_ in datagrams(draw):
                    try:
                        foreign.sendto(bytes_, ("127.0.0.1", port))
                        sent += 1
                    except OSError:
                        pass
        out.seek(0)
        return child.returncode, out.read().decode().splitlines(), sent


def is_right(lines):
    """Whether one list of commands explains the lines."""
    chosen, learnt, replied = {}, set(), {}
    for line in lines:
        words = line.split()
        if words[0] == "learn":
            node, slot, command = int(words[1]), int(words[2]), words[3]
            if (node, slot) in learnt or chosen.setdefault(slot, command) != command:
                return False
            if command != "noop" and not 1 <= int(command.removeprefix("7:")) <= REQUESTS:
                return False
            learnt.add((node, slot))
        elif words[:2] == ["reply", "0"]:
            replied[words[2]] = int(words[3])
        elif line != "refuse 0 44":
            return False
    wanted, last, slot = {}, 0, 0
    while (0, slot) in learnt:
        command = chosen[slot]
        if command != "noop":
            number = int(command.removeprefix("7:"))
            wanted[command] = 21 if number == last + 1 else 31 if number <= last else 32
            last = max(last, number) if number == last + 1 else last
        slot += 1
    return all(wanted.get(command) == code for command, code in replied.items())


def main():
    here = os.path.dirname(os.path.abspath(__file__))
    path = sys.argv[1] if len(sys.argv) > 1 else os.path.join(here, "..", "crates", "mfpx", "out", "mfpx")
    runs = int(sys.argv[2]) if len(sys.argv) > 2 else 20
    draw = random.Random(7)
    wrong = 0
    with tempfile.NamedTemporaryFile("w", suffix=".schedule") as file:
        file.write(schedule())
        file.flush()
        for number in range(runs):
            status, lines, sent = flooded(path, file.name, draw)
            told, last = lines[:-1], lines[-1] if lines else ""
            strangers = int(last.split()[1]) if last.startswith("strangers ") else -1
            well = status == 0 and is_right(told) and 0 <= strangers <= sent
            wrong += not well
            print("run %d: %d datagrams sent, %d strangers, %d lines, of which %d refuse: %s"
                  % (number, sent, strangers, len(told), told.count("refuse 0 44"), "right" if well else "WRONG, status %d" % status))
    print("%d runs, %d wrong" % (runs, wrong))
    return 1 if wrong else 0


if __name__ == "__main__":
    sys.exit(main())

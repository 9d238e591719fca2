#!/usr/bin/env python3
"""Tries how frames are read: bytes that were drawn or changed at random, each judged by a reader that shares no code with the crates.

    check/fuzz_frames.py [PROGRAM] [--seconds N] [--runs N] [--seed N]

PROGRAM is crates/conformance/out/conformance where none is given.

Frames of all kinds are drawn among 3, 5 or 7 nodes, and most of them are changed: a byte that is another one, bytes that are left out,
told again or cut off, a number within them that is at an end of its range, a part of another frame. The program is handed some
hundred of them in a run, as lines `frame NODES FRAME` with the frame in hexadecimal digits, and prints for each the frame, spelled
again of what it read, or its fault. `Reader` here follows the tables of docs/FORMATS.md: a right frame has to come back byte for byte, and
any other has to have the first fault in reading order. A run has to end by itself with status 0 within ten seconds. What is printed at the
end is how many frames ended in which way; the script ends with 1 where one was judged otherwise. The same seed and --runs draw the same.
"""

import argparse
import collections
import os
import random
import subprocess
import sys
import time

SHORT, MAGIC, VERSION, KIND, FIELD, TRAILING, LONG = range(1, 8)
LONGEST, SLOTS, MOST_ENTRIES, MOST_POINTS, LONGEST_ID = 60_000, 65_536, 4, 512, 64
# A part of a snapshot text has so many bytes, but for the last one; and so many bytes has a text.
PART, SHORTEST_TEXT, LONGEST_TEXT = 32_768, 4, 6_311_428
# The kinds of each version.
KINDS = {1: range(1, 8), 2: range(8, 11)}
FURTHEST, LAST_INSTANT = 10_000_000_000, 253_402_300_799_999
ID_BYTES = frozenset(b"ABCDEFGHIJKLMNOPQRSTUVWXYZabcdefghijklmnopqrstuvwxyz0123456789-_.")
FRAMES_A_RUN = 300


class Fault(Exception):
    """The number of what is wrong with a frame."""


class Reader:
    """Reads one frame from left to right."""

    def __init__(self, frame, nodes):
        self.frame, self.nodes, self.at = frame, nodes, 0

    def take(self, size, signed=False):
        if len(self.frame) - self.at < size:
            raise Fault(SHORT)
        self.at += size
        return int.from_bytes(self.frame[self.at - size:self.at], "big", signed=signed)

    def hold(self, is_right, fault=FIELD):
        if not is_right:
            raise Fault(fault)

    def read(self):
        self.hold(len(self.frame) <= LONGEST, LONG)
        self.hold(self.take(2) == 0x4D50, MAGIC)
        version = self.take(1)
        self.hold(version in KINDS, VERSION)
        kind = self.take(1)
        self.hold(kind in KINDS[version], KIND)
        self.node()
        self.node()
        (self.prepare, self.promise, self.nack, self.vote, self.vote, self.slot, self.decided, self.part_asked, self.part,
         self.position)[kind - 1]()
        self.hold(self.at == len(self.frame), TRAILING)

    def node(self):
        node = self.take(1)
        self.hold(node < self.nodes)
        return node

    def ballot(self):
        number = self.take(8)
        self.hold(number > 0)
        return number, self.node()

    def slot(self):
        slot = self.take(4)
        self.hold(slot < SLOTS)
        return slot

    def prepare(self):
        self.ballot()
        self.slot()

    def promise(self):
        promised, first, last = self.ballot(), self.slot(), self.slot()
        self.hold(last >= first)
        count = self.take(1)
        self.hold(count <= MOST_ENTRIES)
        for _ in range(count):
            slot = self.slot()
            self.hold(first <= slot <= last)
            first = slot + 1
            self.hold(self.ballot() <= promised)
            self.command()

    def nack(self):
        ballot = self.ballot()
        self.hold(self.ballot() > ballot)

    def vote(self):
        self.ballot()
        self.slot()
        self.command()

    def decided(self):
        self.slot()
        self.command()

    def position(self):
        self.hold(1 <= self.take(4) <= SLOTS)

    def offset(self, total):
        offset = self.take(4)
        self.hold(offset % PART == 0 and offset < total)
        return offset

    def part_asked(self):
        self.position()
        self.offset(LONGEST_TEXT)

    def part(self):
        self.position()
        total = self.take(4)
        self.hold(SHORTEST_TEXT <= total <= LONGEST_TEXT)
        left = total - self.offset(total)
        count = self.take(2)
        self.hold(count == min(PART, left))
        self.hold(len(self.frame) - self.at >= count, SHORT)
        self.at += count

    def command(self):
        kind = self.take(1)
        self.hold(kind <= 1)
        if kind == 1:
            self.take(1)
            self.hold(self.take(8) > 0)
            self.operation()

    def operation(self):
        kind = self.take(1)
        self.hold(1 <= kind <= 3)
        self.name()
        if kind == 1:
            self.hold(1 <= self.take(1) <= 3)
            count = self.take(2)
            self.hold(1 <= count <= MOST_POINTS)
            before = None
            for _ in range(count):
                before = self.triple(before)
        elif kind == 2:
            self.triple(None)

    def name(self):
        length = self.take(1)
        self.hold(1 <= length <= LONGEST_ID)
        for _ in range(length):
            self.hold(self.take(1) in ID_BYTES)

    def triple(self, before):
        instant = self.take(8, signed=True)
        self.hold(0 <= instant <= LAST_INSTANT)
        for _ in range(2):
            self.hold(-FURTHEST <= self.take(8, signed=True) <= FURTHEST)
        self.hold(before is None or instant > before)
        return instant


def fault_of(frame, nodes):
    """The number of the frame's fault, or None."""
    try:
        Reader(frame, nodes).read()
    except Fault as fault:
        return fault.args[0]
    return None


class Drawing:
    """Frames that may be sent among so many nodes, from one source of chance."""

    def __init__(self, draw, nodes):
        self.draw, self.nodes = draw, nodes

    def number(self, size, most, least=0):
        """A number of so many bytes from the least to the most, often at an end."""
        draw = self.draw
        between, low = draw.randint(least, most), draw.randint(least, min(most, least + 9))
        value = draw.choice((least, most, between, low, max(least, most - draw.randrange(3))))
        return value.to_bytes(size, "big", signed=value < 0)

    def ballot(self, rounds=2**64 - 1, least=1):
        return self.number(8, rounds, least) + bytes([self.draw.randrange(self.nodes)])

    def slot(self):
        return self.number(4, SLOTS - 1)

    def name(self):
        length = self.draw.choice((1, 1, 2, 5, LONGEST_ID))
        return bytes([length]) + bytes(self.draw.choices(sorted(ID_BYTES), k=length))

    def coordinates(self):
        return self.number(8, FURTHEST, -FURTHEST) + self.number(8, FURTHEST, -FURTHEST)

    def points(self):
        draw = self.draw
        count = draw.choice((1, 1, 2, 3, 9, draw.randint(1, MOST_POINTS), MOST_POINTS) if draw.random() < 0.2 else (1, 2, 3))
        instants = sorted(draw.sample(range(draw.choice((count, count + 5, LAST_INSTANT + 1))), count))
        return count.to_bytes(2, "big") + b"".join(t.to_bytes(8, "big") + self.coordinates() for t in instants)

    def command(self):
        draw = self.draw
        if draw.random() < 0.3:
            return b"\0"
        kind = draw.randint(1, 3)
        rest = {
            1: lambda: bytes([draw.randint(1, 3)]) + self.points(),
            2: lambda: self.number(8, LAST_INSTANT) + self.coordinates(),
            3: lambda: b"",
        }
        return b"\1" + bytes([draw.randrange(256)]) + self.number(8, 2**64 - 1, 1) + bytes([kind]) + self.name() + rest[kind]()

    def promise(self):
        draw = self.draw
        most = draw.choice((2**64 - 1, 9, 100))
        slots = sorted(draw.sample(range(draw.choice((6, 100, SLOTS))), draw.randint(2, MOST_ENTRIES + 2)))
        entries = b"".join(slot.to_bytes(4, "big") + self.ballot(most - 1) + self.command() for slot in slots[1:-1])
        ends = slots[0].to_bytes(4, "big") + slots[-1].to_bytes(4, "big")
        return self.ballot(most, most) + ends + bytes([len(slots) - 2]) + entries

    def nack(self):
        most = self.draw.choice((2**64 - 1, 9))
        return self.ballot(most - 1) + self.ballot(most, most)

    def position(self):
        return self.number(4, SLOTS, 1)

    def offset(self, total):
        """A place below so many bytes at which a part begins."""
        return PART * int.from_bytes(self.number(4, (total - 1) // PART), "big")

    def part_asked(self):
        return self.position() + self.offset(LONGEST_TEXT).to_bytes(4, "big")

    def part(self):
        """A part of a text that is short, or as long as some parts and a bit, or any; most are last parts, with few bytes."""
        draw = self.draw
        some = PART * draw.randint(1, 192) + draw.choice((0, 1, 9, PART - 1))
        total = draw.choice((draw.randint(SHORTEST_TEXT, 99), draw.randint(SHORTEST_TEXT, 99), some, int.from_bytes(self.total(), "big")))
        total = min(total, LONGEST_TEXT)
        offset = self.offset(total) if draw.random() < 0.1 else (total - 1) // PART * PART
        count = min(PART, total - offset)
        if count > 999 and draw.random() < 0.8:
            total, count = offset + 99, 99
        head = self.position() + total.to_bytes(4, "big") + offset.to_bytes(4, "big") + count.to_bytes(2, "big")
        return head + draw.randbytes(count)

    def total(self):
        return self.number(4, LONGEST_TEXT, SHORTEST_TEXT)

    def frame(self):
        draw, kind = self.draw, self.draw.randint(1, 10)
        version = next(version for version, kinds in KINDS.items() if kind in kinds)
        vote = lambda: self.ballot() + self.slot() + self.command()
        bodies = {1: lambda: self.ballot() + self.slot(), 2: self.promise, 3: self.nack, 4: vote, 5: vote, 6: self.slot,
                  7: lambda: self.slot() + self.command(), 8: self.part_asked, 9: self.part, 10: self.position}
        return b"MP" + bytes([version, kind, draw.randrange(self.nodes), draw.randrange(self.nodes)]) + bodies[kind]()

    def changed(self, frame, other):
        """The frame after a change."""
        draw, way = self.draw, self.draw.randrange(8)
        # The bytes of a part are many, and any will do.
        at = draw.randrange(len(frame) + 1 if draw.random() < 0.5 else min(len(frame), 40) + 1)
        if way == 0:
            return frame[:at] + bytes([draw.randrange(256)]) + frame[at + 1:]
        if way == 1:
            return frame[:at] + bytes([draw.choice((0, 1, 2, 3, 5, 7, 8, 10, 11, 0x7F, 0x80, 0xFF))]) + frame[at + 1:]
        if way == 2:
            return frame[:at]
        if way == 3:
            return frame[:at] + draw.randbytes(draw.choice((1, 1, 8))) + frame[at:]
        if way == 4:
            return frame[:at] + frame[at + draw.randint(1, 9):]
        if way == 5:
            size = draw.choice((2, 4, 8))
            return frame[:at] + draw.choice((0, 1, 2**(8 * size - 1), 2**(8 * size) - 1)).to_bytes(size, "big") + frame[at + size:]
        if way == 6:
            return frame[:at] + other[draw.randrange(len(other) + 1):]
        return frame + (b"\0" if draw.random() < 0.9 else bytes(LONGEST))

    def handed(self):
        """A frame as it is handed in: a right one, one after some changes, or noise."""
        draw, frame = self.draw, self.frame()
        if draw.random() < 0.02:
            return draw.randbytes(draw.randrange(40))
        for _ in range(draw.choice((0, 1, 1, 1, 2, 4))):
            frame = self.changed(frame, self.frame())
        return frame


def answers(program, frames):
    """What the program prints for these frames among so many nodes each."""
    text = "".join("frame %d %s\n" % (nodes, frame.hex()) for nodes, frame in frames)
    try:
        ended = subprocess.run([program], input=text.encode(), capture_output=True, timeout=10)
    except subprocess.TimeoutExpired:
        return None
    lines = ended.stdout.decode().splitlines()
    return lines if ended.returncode == 0 and not ended.stderr and len(lines) == len(frames) else None


def judged(program, frames, counts):
    """How many of these frames were answered wrongly; each way to end is counted."""
    told = answers(program, frames)
    if told is None:
        print("a run that ended wrongly: %s" % frames[0][1].hex())
        return len(frames)
    wrong = 0
    for (nodes, frame), line in zip(frames, told):
        fault = fault_of(frame, nodes)
        counts["read" if fault is None else "fault %d" % fault] += 1
        if line != (frame.hex() if fault is None else "fault %d" % fault):
            wrong += 1
            print("among %d nodes %s: %s in the place of %s" % (nodes, frame.hex(), line, fault or "the same"))
    return wrong


def main():
    here = os.path.dirname(os.path.abspath(__file__))
    words = argparse.ArgumentParser()
    words.add_argument("program", nargs="?", default=os.path.join(here, "..", "crates", "conformance", "out", "conformance"))
    words.add_argument("--seconds", type=float, default=60)
    words.add_argument("--runs", type=int)
    words.add_argument("--seed", type=int, default=1)
    asked = words.parse_args()
    draw, counts, runs, wrong, end = random.Random(asked.seed), collections.Counter(), 0, 0, time.time() + asked.seconds
    while runs < asked.runs if asked.runs else time.time() < end:
        nodes = draw.choice((3, 5, 7))
        drawing = Drawing(draw, nodes)
        wrong += judged(asked.program, [(nodes, drawing.handed()) for _ in range(FRAMES_A_RUN)], counts)
        runs += 1
    kinds = ", ".join("%s %d" % it for it in sorted(counts.items()))
    print("%d runs, %d frames: %s; %d wrong" % (runs, sum(counts.values()), kinds, wrong))
    return 1 if wrong else 0


if __name__ == "__main__":
    sys.exit(main())

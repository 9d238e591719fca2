#!/usr/bin/env python3
"""Tries the program `mfpx` from outside: with schedules, documents and words that were drawn, or changed at random.

    check/fuzz.py PROGRAM SEEDS.. [--seconds N] [--runs N] [--seed N] [--kinds K,K..] [--keep FOLDER]
                  [--other PROGRAM [--unlike WORD,WORD..]]

SEEDS are folders. A file that begins with `nodes ` is a schedule to be changed, and one that begins with a brace a document;
other files, and results that lie beside their inputs, are passed over. Kinds of runs, in turn:

    drawn        a schedule that was drawn: 3, 5 or 7 nodes, all events and queries, some with a node that missed what the others forgot;
                 frames that were never sent are put right
    changed      a schedule of SEEDS or a drawn one, changed in its lines, words, numbers or bytes
    documents    a document of SEEDS or a drawn one, changed, for `check`
    words        words of the command line
    large        a schedule of many lines, a line of many bytes, a document of many points, a log of some hundred slots

Each run has to end by itself within a second (ten, of 64 kB and more; in one of three tries), with status 0 to 3, and with standard
error as docs/FORMATS.md says. The result is compared with what `reference_parser.py` and `reference_db.py` find: the first faulty line
and its lowest fault, a document's fault and its place, the canonical document. The transcript of a right schedule has to be explained
(`one_log.py`), with the checkpoints that it leaves in files; one that has too many readings or databases to be judged is counted as
undecided. With --other another program of the same meaning is run as well, and has to print the same, unless the input or the words of
the command line have one of the words of --unlike, which the other one knows and this one doesn't.

A run that fails is made shorter, by lines or by bytes, as long as it fails in the same way, and is kept in FOLDER. What is
printed at the end is how many runs of each kind ended in which way; the script ends with 1 where any failed. The same seed,
SEEDS and --runs draw the same runs.
"""

import argparse
import collections
import os
import random
import re
import subprocess
import sys
import tempfile
import time

import one_log
import reference_db
import reference_parser

KINDS = ("drawn", "changed", "documents", "words", "large")
LARGE = 64 * 1024
USAGE, DEVICE = b"mfpx: usage\n", b"mfpx: device\n"
AT_LINE = re.compile(rb"mfpx: line ([1-9][0-9]*) fault ([1-9][0-9]*)\n")
MOST_EVENTS = 3000
# Files are made in memory where there is such a folder.
MEMORY = "/dev/shm" if os.path.isdir("/dev/shm") else None
MOST_KEPT = 3000
WRONG_BYTES = (0x00, 0x09, 0x0D, 0x1F, 0x7F, 0x80, 0xC3, 0xFF)
NUMBERS = ("0", "00", "-0", "1", "-1", "2", "3", "5", "6", "7", "8", "+1", "1.0", "1e3", "255", "256", "65535", "65536",
           "10000000000", "10000000001", "-10000000000", "-10000000001", "18446744073709551615", "18446744073709551616",
           "99999999999999999999999999", "")
WORDS = ("nodes", "submit", "deliver", "drop", "flush", "timeout", "tick", "checkpoint", "trim", "restart", "round", "fault", "query",
         "old", "new", "read", "put", "append", "remove", "at", "cut", "ever", "always", "within", "get", "count",
         "bus-7", "a", "b", "x" * 64, "x" * 65,
         "2020-01-01T00:00:00Z", "2020-01-01T00:00:00.000Z", "1969-12-31T23:59:59.999Z", "9999-12-31T23:59:59.999Z",
         "2020-02-30T00:00:00Z", "{}", "[]", "null", "") + NUMBERS

TOKEN = re.compile(rb'"(?:[^"\\]|\\.)*"|[-+0-9.eE]+|[a-z]+|\s+|.', re.DOTALL)
TEXTS = (b'"type"', b'"id"', b'"temporalGeometry"', b'"datetimes"', b'"coordinates"', b'"interpolation"', b'"Feature"', b'"MovingPoint"',
         b'"Linear"', b'"Step"', b'"Discrete"', b'"bus-7"', b'""', b'"\\u0041"', b'"\\ud83d\\ude00"', b'"\\ud800"', b'"\\x"',
         b'"2020-01-01T00:00:00Z"', b'"2020-01-01T00:00:00.001Z"', b'"1969-12-31T23:59:59.999Z"', b'"9999-12-31T23:59:59.999Z"',
         b'"2020-01-01T24:00:00Z"', b'"2020-01-01T00:00:60Z"', b'"2021-02-29T00:00:00Z"', b'"2020-02-29T00:00:00Z"',
         b'"2020-01-01T00:00:00z"', b'"2020-01-01T00:00:00+00:00"', b'"\xc3\xa9"', b'"a/b"')
TOKENS = (b"{", b"}", b"[", b"]", b",", b":", b" ", b"\n", b"null", b"true", b"false", b"0", b"-0", b"1.0", b"1e3", b"-1", b"10000000000",
          b"10000000001", b"9223372036854775808", b"18446744073709551616", b"1e999", b"[]", b"{}", b"[0,0]", b",[1,2]")


class Failed(Exception):
    """What is wrong with a run, in words that don't change as the input is made shorter."""


# Drawn schedules and documents.


class Drawing:
    """What is drawn, from one source of chance."""

    def __init__(self, draw):
        self.draw = draw

    def time(self):
        draw = self.draw
        text = "2020-01-01T00:00:%02d" % draw.randrange(12)
        return text + draw.choice(("Z", "Z", ".000Z", ".%03dZ" % draw.randrange(1000)))

    def times(self, count):
        """So many datetimes in order, each once, in some spelling."""
        draw = self.draw
        seconds = sorted(draw.sample(range(count * 2 + 10), count))
        return ["2020-01-01T%02d:%02d:%02d%s" % (s // 3600, s // 60 % 60, s % 60, draw.choice(("Z", ".000Z"))) for s in seconds]

    def coordinate(self):
        return self.draw.choice((0, 0, 1, -1, 2, 3, 5, 7, 10, -10, 100, 9_999_999_999, reference_db.COORDINATE, -reference_db.COORDINATE))

    def name(self):
        return self.draw.choice(("a", "a", "a", "b", "b", "bus-7", "A.b_c"))

    def document(self, count=None):
        """A document, with its members in some order and blanks in some places."""
        draw = self.draw
        count = count or draw.choice((1, 1, 2, 3, 4, 9))
        times = ",".join('"%s"' % time for time in self.times(count))
        places = ",".join("[%d,%d]" % (self.coordinate(), self.coordinate()) for _ in range(count))
        inner = ['"type":"MovingPoint"', '"datetimes":[%s]' % times, '"coordinates":[%s]' % places,
                 '"interpolation":"%s"' % draw.choice(reference_db.INTERPOLATIONS)]
        draw.shuffle(inner)
        outer = ['"type":"Feature"', '"id":"%s"' % self.name(), '"temporalGeometry":{%s}' % draw.choice((",", ", ")).join(inner)]
        draw.shuffle(outer)
        return "{%s}" % draw.choice((",", " , ")).join(outer)

    def operation(self):
        draw = self.draw
        kind = draw.choice(("put", "put", "append", "append", "remove"))
        if kind == "put":
            return "put " + self.document()
        if kind == "append":
            return "append %s %s %d %d" % (self.name(), self.time(), self.coordinate(), self.coordinate())
        return "remove " + self.name()

    def period(self):
        """Two datetimes, often with marks; where they are equal a mark may leave nothing of the period, which is a fault."""
        begin, end = sorted((self.time(), self.time()), key=reference_db.instant)
        return "%s%s %s%s" % (self.draw.choice(("", "", "[", "(")), begin, end, self.draw.choice(("", "", "]", ")")))

    def rectangle(self):
        across, along = sorted((self.coordinate(), self.coordinate())), sorted((self.coordinate(), self.coordinate()))
        return "%d %d %d %d" % (across[0], along[0], across[1], along[1])

    def query(self):
        kind = self.draw.choice(("at", "cut", "ever", "always", "within", "get", "count"))
        words = {"at": lambda: [self.name(), self.time()], "cut": lambda: [self.name(), self.period()], "get": lambda: [self.name()],
                 "within": lambda: [self.period(), self.rectangle()], "count": lambda: []}
        return " ".join([kind] + words.get(kind, lambda: [self.name(), self.period(), self.rectangle()])())

    def schedule(self, count=None):
        """A schedule with its kinds of events drawn by weights that are drawn first, and queries of all nodes at the end."""
        draw, nodes = self.draw, self.draw.choice((3, 3, 5, 7))
        self.numbers, self.frames, self.fresh = {}, 1, 10
        kinds = ("submit", "timeout", "deliver", "drop", "flush", "tick", "checkpoint", "trim", "fault", "restart", "query", "round")
        weights = [draw.random() ** 2 * most for most in (6, 1.2, 12, 1, 1, 1, 1, 1, 1, 1, 4, 1)]
        lines = ["nodes %d" % nodes] + draw.choice((self.beginning, self.beginning, self.outage, lambda nodes: []))(nodes)
        lines += [self.line(draw.choices(kinds, weights)[0], nodes) for _ in range(count or draw.randrange(4, 90))]
        lines += ["restart %d" % draw.randrange(nodes)] * draw.randrange(2) + ["flush"] * draw.randrange(2)
        return lines + ["query %d %s" % (node, self.query()) for node in range(nodes) for _ in range(draw.randrange(3))]

    def beginning(self, nodes):
        """Features that all nodes learn before anything goes wrong."""
        count = self.draw.randrange(1, 6)
        self.frames = nodes * (2 + count * (1 + nodes))
        return ["submit 0 %d 1 put %s" % (client, self.document()) for client in range(count)] + ["timeout 0", "flush"]

    def outage(self, nodes):
        """One node misses what the others forget, and asks for it."""
        draw, lost, count = self.draw, self.draw.randrange(nodes), self.draw.randrange(1, 5)
        leader, others = (lost + 1) % nodes, [node for node in range(nodes) if node != lost]
        lines = ["fault %d read" % lost, "restart %d" % lost]
        lines += ["submit %d %d 1 put %s" % (leader, client, self.document()) for client in range(count)]
        lines += ["timeout %d" % leader, "flush"]
        for node in others:
            lines += ["%s %d" % (word, node) for word in ("checkpoint", "trim", "restart") if draw.random() < 0.9]
        self.frames = 2 * nodes - 1 + count * nodes * nodes + len(others)
        return lines + ["restart %d" % lost, "tick %d" % lost] + ["flush"] * (draw.random() < 0.3)

    def long_log(self, count):
        """A schedule of this many slots and more: one leader goes on, and others begin anew and are told all of it."""
        draw, nodes = self.draw, self.draw.choice((3, 5, 7))
        self.numbers, self.frames, self.fresh = {}, 1, 10
        lines = ["nodes %d" % nodes, "timeout 0", "flush"]
        for _ in range(count):
            lines += [self.line("submit", 1) for _ in range(draw.choice((1, 1, 1, 3, 12)))]
            lines += ["flush", "query %d %s" % (draw.randrange(nodes), self.query())]
            if draw.random() < 0.02:
                other = draw.randrange(1, nodes)
                lines += ["restart %d" % other, "tick %d" % other, "flush", "query %d count" % other]
        return lines

    def client(self):
        """A client with its next number, mostly: a new one, or one that has asked before."""
        draw = self.draw
        if draw.random() < 0.5:
            self.fresh += 1
            return self.fresh % 256, 1
        client = draw.choice((7, 7, 8, 255, self.fresh % 256))
        self.numbers[client] = max(1, self.numbers.get(client, 0) + draw.choice((1, 1, 1, 1, 1, 0, 0, -1, 2)))
        return client, self.numbers[client]

    def line(self, kind, nodes):
        """A line of this kind."""
        draw, node = self.draw, self.draw.randrange(nodes)
        if kind == "flush":
            self.frames += draw.randrange(5 * nodes)
            return kind
        if kind in ("deliver", "drop"):
            # About as many frames are there; the last ones are the ones that matter.
            frame = int(self.frames - draw.expovariate(1 / 6)) if draw.random() < 0.8 else draw.randrange(self.frames)
            self.frames += draw.choice((0, 1, 1, 1, nodes)) if kind == "deliver" else 0
            return "%s %d" % (kind, max(0, frame))
        if kind == "submit":
            return "submit %d %d %d %s" % (node, *self.client(), self.operation())
        if kind == "query":
            return "query %d %s" % (node, self.query())
        if kind == "fault":
            return "fault %d %s" % (node, draw.choice(("old", "new", "read")))
        if kind == "round":
            members = draw.sample(range(nodes), draw.randrange(nodes // 2 + 1, nodes + 1))
            members = members if draw.random() < 0.1 or node in members else [node] + members[1:]
            self.frames += 4 * nodes
            return "round %d %s" % (node, " ".join(map(str, members)))
        self.frames += nodes if kind == "timeout" else 0
        return "%s %d" % (kind, node)


# Changes.


class Changes:
    """Changes of bytes that were right."""

    def __init__(self, draw, others):
        self.draw, self.others = draw, others

    def changed(self, data):
        """A schedule after one to four changes."""
        return self.change(data, (self.lines, self.lines, self.words, self.numbers, self.numbers, self.bytes))

    def changed_document(self, data):
        """The same of a document."""
        return self.change(data, (self.tokens, self.tokens, self.tokens, self.numbers, self.numbers, self.bytes))

    def change(self, data, ways):
        """What comes of one to four changes, each in one of these ways."""
        for _ in range(self.draw.choice((1, 1, 2, 4))):
            data = self.draw.choice(ways)(data)
        return data

    def tokens(self, data):
        """A text, number or bracket of JSON left out, told again, moved, or another one."""
        draw, tokens = self.draw, TOKEN.findall(data)
        if not tokens:
            return data
        at, other, way = draw.randrange(len(tokens)), draw.randrange(len(tokens)), draw.randrange(6)
        if way == 0:
            begin, end = sorted((at, other))
            del tokens[begin:end if draw.random() < 0.1 else begin + 1]
        elif way == 1:
            tokens.insert(at, tokens[other])
        elif way == 2:
            tokens[at], tokens[other] = tokens[other], tokens[at]
        elif way == 3:
            # An element or a member more, or less: a comma with what stands behind it.
            tokens[at:at] = tokens[other:other + 2]
        elif way == 4:
            alike = [i for i, token in enumerate(tokens) if token[:1] == b'"']
            if alike:
                tokens[draw.choice(alike)] = draw.choice(TEXTS)
        else:
            tokens[at] = draw.choice(TEXTS + TOKENS)
        return b"".join(tokens)

    def lines(self, data):
        """A line left out, told again, moved, cut off, or one of another input."""
        draw, lines = self.draw, data.split(b"\n")
        at, other = draw.randrange(len(lines)), draw.randrange(len(lines))
        way = draw.randrange(7)
        if way == 0:
            del lines[at]
        elif way == 1:
            lines[at:at] = [lines[other]] * draw.choice((1, 1, 2, 70))
        elif way == 2:
            lines[at], lines[other] = lines[other], lines[at]
        elif way == 3:
            lines.insert(at, draw.choice(draw.choice(self.others).split(b"\n")))
        elif way == 4:
            lines[at] = b""
        elif way == 5:
            del lines[at:]
        else:
            begin, end = sorted((at, other))
            between = lines[begin:end]
            draw.shuffle(between)
            lines[begin:end] = between
        return b"\n".join(lines)

    def words(self, data):
        """A word left out, told again, moved within its line, or another one."""
        draw, lines = self.draw, data.split(b"\n")
        at = draw.randrange(len(lines))
        words = lines[at].split(b" ")
        place, way = draw.randrange(len(words)), draw.randrange(5)
        if way == 0:
            del words[place]
        elif way == 1:
            words.insert(place, words[place])
        elif way == 2:
            words[place] = draw.choice(WORDS).encode()
        elif way == 3:
            words.insert(place, draw.choice(WORDS).encode())
        else:
            draw.shuffle(words)
        lines[at] = b" ".join(words)
        return b"\n".join(lines)

    def numbers(self, data):
        """A number that is another one."""
        found = list(re.finditer(rb"-?[0-9]+", data))
        if not found:
            return data
        one = self.draw.choice(found)
        value = int(one.group()) if len(one.group()) < 30 else 0
        other = self.draw.choice((str(value + 1), str(value - 1), str(-value), self.draw.choice(NUMBERS)))
        return data[:one.start()] + other.encode() + data[one.end():]

    def bytes(self, data):
        """A byte that is another one, one more, or some fewer."""
        draw, at = self.draw, self.draw.randrange(len(data) + 1)
        way = draw.randrange(4)
        byte = bytes([draw.choice(WRONG_BYTES) if draw.random() < 0.4 else draw.randrange(0x20, 0x7F)])
        if way == 0:
            return data[:at] + byte + data[at + 1:]
        if way == 1:
            return data[:at] + byte * draw.choice((1, 1, 300)) + data[at:]
        if way == 2:
            return data[:at] + data[at + draw.randrange(1, 9):]
        return data[:at]


# Runs, and what has to come of them.


class Runs:
    """Runs of the program, each judged."""

    def __init__(self, program, other, unlike):
        self.program, self.other, self.late, self.compared = program, other, 0, 0
        self.unlike = [word.encode() for word in unlike]

    def ended(self, words, data, program):
        """A run that ends within its time, in one of three tries, as the machine may be busy."""
        limit = 1 if len(data) < LARGE else 10
        for _ in range(3):
            try:
                return subprocess.run([program, *words], input=data, capture_output=True, timeout=limit)
            except subprocess.TimeoutExpired:
                self.late += 1
        raise Failed("it does not end within %d s, three times" % limit)

    def run(self, words, data, program=None):
        """Status, standard output and standard error; a run that a signal ends, or time, has failed."""
        done = self.ended(words, data, program or self.program)
        if done.returncode < 0:
            raise Failed("signal %d" % -done.returncode)
        if done.returncode > 3:
            raise Failed("status %d" % done.returncode)
        return done.returncode, done.stdout, done.stderr

    def judged(self, words, data):
        """How a run ended; `Failed` where it should have ended otherwise."""
        end = self.run(words, data)
        if end[0] != 0 and end[1]:
            raise Failed("something is printed, with status %d" % end[0])
        if end[0] == 0 and end[2]:
            raise Failed("something stands on standard error, with status 0")
        if self.other:
            self.compare(words, data, end)
        words = without_dashes(words)
        if words == ["replay", "-"] or not words:
            return self.replayed(data, *end)
        if words == ["check", "-"]:
            return self.checked(data, *end)
        if words == ["loopback", "-"]:
            return self.looped(data, *end)
        return self.refused(words, *end)

    def compare(self, words, data, end):
        """Runs the other program, unless it knows a word that this one doesn't."""
        if any(word in data or word.decode() in words for word in self.unlike):
            return
        self.compared += 1
        if self.run(words, data, self.other) != end:
            raise Failed("the other program ends otherwise")

    def replayed(self, data, status, out, err):
        """How a replay ended."""
        events, fault = self.first_fault(data, status, err)
        if fault is not None:
            return "fault %d" % fault
        if status != 0:
            return self.ended_at(events, status, err)
        return self.explained(data, events, out)

    def looped(self, data, status, out, err):
        """How a loopback of a schedule ended that asks for nothing."""
        _, fault = self.first_fault(data, status, err)
        if fault is not None:
            return "fault %d" % fault
        if (status, out) != (0, b"strangers 0\n"):
            raise Failed("a loopback in which nothing is asked ends with status %d and %r" % (status, err))
        return "looped"

    def first_fault(self, data, status, err):
        """The events of a schedule and no fault; or the fault of its first faulty line, with which the run has to end."""
        try:
            _, events = reference_parser.read(data)
        except reference_parser.Faulty as faulty:
            if (status, err) != (1, b"mfpx: line %d fault %d\n" % (faulty.line, faulty.fault)):
                raise Failed("not the first faulty line with its lowest fault") from None
            return None, faulty.fault
        return events, None

    def ended_at(self, events, status, err):
        """How a replay of a right schedule ended that didn't come to its end."""
        found = AT_LINE.fullmatch(err)
        kinds = {event.line: event.kind for event in events}
        kind = kinds.get(int(found.group(1))) if found else None
        if status != 1 or (kind, found.group(2)) not in (("deliver", b"51"), ("drop", b"51"), ("flush", b"53")):
            raise Failed("a right schedule ends with status %d and %r" % (status, err))
        return "fault " + found.group(2).decode()

    def explained(self, data, events, out):
        """Whether one list explains a transcript, and the checkpoints that the same run leaves in files."""
        if len(events) > MOST_EVENTS:
            return "too long to judge"
        try:
            with tempfile.TemporaryDirectory(dir=MEMORY) as folder:
                has_checkpoints = any(event.kind == "checkpoint" for event in events)
                if has_checkpoints and self.over_files(data, folder) != out:
                    raise Failed("another transcript over files")
                one_log.explain(data, out.decode("ascii"), most=MOST_KEPT, folder=folder if has_checkpoints else None)
        except (one_log.Unexplained, UnicodeDecodeError) as why:
            raise Failed("the transcript is not explained") from why
        except one_log.Undecided:
            return "undecided"
        return "explained"

    def over_files(self, data, folder):
        """The transcript of a schedule whose nodes keep their records in files. It is run once, as a second run finds the first one's."""
        words = [self.program, "replay", "-", "--db", folder]
        return subprocess.run(words, input=data, capture_output=True, timeout=60).stdout

    def checked(self, data, status, out, err):
        """How a check of a document ended."""
        try:
            try:
                right = 0, (reference_db.canonical(*reference_db.document(data.decode())) + "\n").encode(), b""
            except UnicodeDecodeError:
                raise reference_db.NoDocument(1) from None
        except reference_db.NoDocument as fault:
            place = b"" if fault.place is None else b" at %d" % fault.place
            right = 1, b"", b"mfpx: document fault %d%s\n" % (fault.fault, place)
        if (status, out, err) != right:
            raise Failed("not the canonical document, nor its fault")
        return "canonical" if status == 0 else "fault %d" % int(err.split()[3])

    def refused(self, words, status, out, err):
        """How a run of other words ended: a usage, or a file that can't be used."""
        is_form = len(words) == 2 and words[0] in ("replay", "loopback", "check") and not words[1].startswith("-")
        if (status, err) == (3, DEVICE) if is_form else (status, err) in ((2, USAGE), (3, DEVICE)):
            return "usage" if status == 2 else "device"
        raise Failed("other words end with status %d and %r" % (status, err))


def without_dashes(words):
    """The words without a `--` behind the work: it says that no option follows."""
    at = words.index("--", 1) if "--" in words[1:] else len(words)
    return words[:at] + words[at + 1:]


def shorter(data, fails, by, seconds=20):
    """The input with as many lines, or bytes, left out as can be while it fails in the same way, within a time."""
    pieces, size, until = list(by(data)), None, time.monotonic() + seconds
    size = max(1, len(pieces) // 2)
    while size and time.monotonic() < until:
        at, changed = 0, False
        while at < len(pieces) and time.monotonic() < until:
            left = pieces[:at] + pieces[at + size:]
            if fails(b"".join(left)):
                pieces, changed = left, True
            else:
                at += size
        size = size if changed and size == 1 else size // 2
    return b"".join(pieces)


def by_lines(data):
    return data.splitlines(keepends=True)


def by_bytes(data):
    return (data[i:i + 1] for i in range(len(data)))


# The seeds, and the kinds of runs.


def seeds(folders):
    """The schedules and the documents of the folders, those under 64 kB."""
    found = [], []
    for path in sorted(os.path.join(where, name) for folder in folders for where, _, names in os.walk(folder) for name in names):
        if os.path.getsize(path) >= LARGE or path.endswith((".stdout", ".stderr", ".status", ".transcript", ".canonical", ".error")):
            continue
        with open(path, "rb") as file:
            data = file.read()
        if data.startswith(b"nodes "):
            found[0].append(data)
        elif data.lstrip().startswith(b"{"):
            found[1].append(data)
    return found


class Fuzzer:
    """Draws runs of each kind in turn, and counts how they end."""

    def __init__(self, runs, draw, folders, keep):
        self.runs, self.draw, self.keep = runs, draw, keep
        self.drawing = Drawing(draw)
        self.schedules, self.documents = seeds(folders)
        self.ends, self.failures, self.tries = collections.Counter(), collections.Counter(), 0

    def inputs(self, kind):
        """Words and bytes of a run of this kind."""
        return getattr(self, kind)()

    def drawn(self):
        """A drawn schedule, in which lines that name frames which were never sent name others."""
        lines = self.drawing.schedule()
        for _ in range(60):
            data = "".join(line + "\n" for line in lines).encode()
            try:
                status, _, err = self.runs.run(["replay", "-"], data)
            except Failed:
                break
            self.tries += 1
            found = AT_LINE.fullmatch(err)
            if status != 1 or not found or found.group(2) != b"51":
                break
            lines = self.put_right(lines, int(found.group(1)) - 1)
        return ["replay", "-"], data

    def put_right(self, lines, at):
        """The lines where the one at this place names a lower frame, and those after it frames that are lower by as many."""
        frame = int(lines[at].split(" ")[1])
        if frame == 0:
            return lines[:at] + ["timeout 0"] + lines[at + 1:]
        less = frame - self.draw.randrange(max(0, frame - 12), frame)
        later = [line.split(" ") for line in lines[at:]]
        return lines[:at] + ["%s %d" % (line[0], max(0, int(line[1]) - less)) if line[0] in ("deliver", "drop") else " ".join(line)
                             for line in later]

    def changed(self):
        """A replay of a schedule that was changed."""
        if self.draw.random() < 0.3 or not self.schedules:
            data = "\n".join(self.drawing.schedule()).encode()
        else:
            data = self.draw.choice(self.schedules)
        return ["replay", "-"], Changes(self.draw, self.schedules or [data]).changed(data)

    def document(self):
        """A document of the seeds, or a drawn one."""
        if self.draw.random() < 0.3 or not self.documents:
            return self.drawing.document().encode()
        return self.draw.choice(self.documents)

    def documents_run(self):
        """A check of a document that was changed."""
        data = self.document()
        return ["check", "-"], Changes(self.draw, self.documents or [data]).changed_document(data)

    def words(self):
        """Words that are no form, or that name a file which can't be read."""
        draw = self.draw
        pool = ("replay", "check", "loopback", "-", "--", "", "missing/file", os.curdir, "--help", "-h", "--version", "-V", "help",
                "REPLAY", "x" * 5000, "caf\u00e9", "-x", "--file=-", "replay=-")
        words = [draw.choice(pool) for _ in range(draw.randrange(5))]
        return words, b"".join(draw.choice((b"nodes 3\n", b"{", b"")) for _ in range(2)) if words else b"nodes 3\n"

    def large(self):
        """An input of 64 kB and more."""
        draw, way = self.draw, self.draw.randrange(8)
        if way == 0:
            line = draw.choice((b"tick 0\n", b"\n", b"query 1 count\n", b"timeout 0\n", b"fault 2 old\n", b"restart 1\n"))
            return ["replay", "-"], b"nodes 3\n" + line * draw.choice((20_000, 60_000))
        if way == 1:
            return ["replay", "-"], b"nodes 3\nquery 0 " + draw.choice((b"x", b"1", b" ", b"-", b"{")) * 1_000_000
        if way == 2:
            return ["replay", "-"], b"nodes 3\nsubmit 0 7 1 put " + self.drawing.document(draw.choice((1023, 1024, 1025, 4000))).encode()
        if way == 3:
            return ["check", "-"], self.drawing.document(draw.choice((1023, 1024, 1025, 4000))).encode()
        if way == 4:
            return ["check", "-"], draw.choice((b"[", b'{"a":', b'"', b" ", b"\\u0030", b"9")) * 300_000
        lines = self.drawing.schedule(2500) if way == 5 else self.drawing.long_log(draw.choice((100, 300)))
        return ["replay", "-"], "".join(line + "\n" for line in lines).encode()

    def one(self, kind):
        """One run of a kind."""
        words, data = self.documents_run() if kind == "documents" else self.inputs(kind)
        try:
            end = self.runs.judged(words, data)
        except Failed as why:
            end = "failed"
            self.keep_failure(kind, words, data, why)
        self.ends[kind, end] += 1

    def keep_failure(self, kind, words, data, why):
        """Keeps what failed, made shorter, and tells it."""
        text = str(why)
        self.failures[text] += 1
        if self.failures[text] > 5:
            return

        def fails(shortened):
            try:
                self.runs.judged(words, shortened)
            except Failed as other:
                return str(other) == text
            return False

        short = shorter(data, fails, by_lines)
        short = shorter(short, fails, by_bytes) if len(short) < 2000 else short
        name = "%s-%d" % (kind, sum(self.failures.values()))
        print("FAILED %s: %s%s; words %r, %d bytes: %r" % (name, text, "" if why.__cause__ is None else " (%s)" % why.__cause__, words,
                                                         len(short), short[:300]), flush=True)
        if self.keep:
            os.makedirs(self.keep, exist_ok=True)
            for suffix, content in (("", data), (".short", short)):
                with open(os.path.join(self.keep, name + suffix), "wb") as file:
                    file.write(content)

    def report(self):
        """Prints how many runs of each kind ended in which way."""
        for kind in KINDS:
            ends = sorted((end, count) for (of, end), count in self.ends.items() if of == kind)
            if ends:
                total = sum(count for _, count in ends)
                print("%-10s %8d runs: %s" % (kind, total, ", ".join("%d %s" % (count, end) for end, count in ends)))
        print("%-10s %8d runs that put drawn schedules right, judged by their status alone" % ("", self.tries))
        print("%-10s %8d runs past their time that were tried again" % ("", self.runs.late))
        print("%-10s %8d runs compared with the other program" % ("", self.runs.compared))
        print("%d runs, %d failed" % (sum(self.ends.values()), sum(count for (_, end), count in self.ends.items() if end == "failed")))


def main():
    parser = argparse.ArgumentParser(description=__doc__, formatter_class=argparse.RawDescriptionHelpFormatter)
    parser.add_argument("program")
    parser.add_argument("seeds", nargs="*", metavar="SEEDS")
    parser.add_argument("--seconds", type=float, default=60, metavar="N", help="how long it goes on, where --runs says nothing")
    parser.add_argument("--runs", type=int, metavar="N", help="how many runs are made")
    parser.add_argument("--seed", type=int, default=1, metavar="N")
    parser.add_argument("--other", metavar="PROGRAM", help="another program, which has to print the same")
    parser.add_argument("--unlike", default="", metavar="WORD,..", help="words that the other program alone knows")
    parser.add_argument("--keep", metavar="FOLDER", help="where runs that failed are kept")
    parser.add_argument("--kinds", default="drawn,drawn,drawn,changed,changed,changed,documents,documents,words",
                        help="kinds of runs in turn; every 200th run is large besides")
    words = parser.parse_args()
    kinds = words.kinds.split(",")
    if not set(kinds) <= set(KINDS):
        parser.error("kinds are " + ", ".join(KINDS))
    runs = Runs(os.path.abspath(words.program), words.other and os.path.abspath(words.other), list(filter(None, words.unlike.split(","))))
    fuzzer = Fuzzer(runs, random.Random(words.seed), words.seeds, words.keep)
    until, made = time.monotonic() + words.seconds, 0
    while made < words.runs if words.runs is not None else time.monotonic() < until:
        made += 1
        fuzzer.one("large" if made % 200 == 0 else kinds[made % len(kinds)])
    print("seed %d, %d schedules and %d documents as seeds" % (words.seed, len(fuzzer.schedules), len(fuzzer.documents)))
    fuzzer.report()
    sys.exit(1 if any(end == "failed" for _, end in fuzzer.ends) else 0)


if __name__ == "__main__":
    main()

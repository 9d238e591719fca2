#!/usr/bin/env python3
"""Says whether one list of commands explains all that a run of `mfpx replay` printed.

    check/one_log.py SCHEDULE TRANSCRIPT [--db DIR] [--memory] [--most N] [--list]

SCHEDULE is what was run, and TRANSCRIPT is what the program printed. Nothing is taken from the program or its crates. Two
things are looked for:

1. A reading: which line of the schedule printed which line of the transcript. Only a query prints an answer, a node that
   is down prints nothing but `refuse NODE 41`, a slot is learnt once in a node's life, replies follow the slot that they
   rest on, a submission is refused where 64 others wait, a restart begins at the position of the last checkpoint that was
   written, a node that is behind is restored at a position at which another one wrote a checkpoint, and so on. What a frame does
   is not known: any delivery may print what any frame could, and any trim may find no vote to take out. All readings are kept.
2. A list: each learnt slot has the one command that all nodes learnt there, a no-op or a request that was submitted and
   accepted by then, with the operation of one of its submissions; each reply and each answer at a position is, byte for
   byte, that of a plain database (`reference_db.py`) that executed so many entries of the list, each request once. All lists are
   kept, as long as their databases differ.

With `--db` the nodes' records were kept in DIR. Each node's record Checkpoint is then at the position of its last checkpoint that was
written, and its text that of the database and clients after so many entries of the list; without a checkpoint there is no record.

It prints `explained` and ends with 0, or the first line that no list explains and ends with 1, or `undecided` and ends with
2, where more than N databases (100,000) would have to be kept. With `--memory` requests for memory were refused: nodes may
begin down, and any event may end with 47. `--list` prints the list too.
"""

import argparse
import os
import sqlite3
import sys
from typing import NamedTuple

import reference_db
import reference_parser

MOST_SLOTS = 65536
MOST_WAITING = 64
MOST_PUT = 512
PAST, GAP = 31, 32
MEMORY = 47


class Unexplained(Exception):
    """The first line, from 1, that no single list explains, and why."""

    def __init__(self, line, why):
        super().__init__("line %d: %s" % (line, why))
        self.line, self.why = line, why


class Undecided(Exception):
    """More readings or databases than may be kept."""


# The transcript's lines.


class Told(NamedTuple):
    """A line: its first word, its node, and its words. Of `learn`, `answer` and `restore` the number is the slot or the position."""
    kind: str
    node: int
    number: int = -1
    text: str = ""


def natural(word):
    if not reference_parser.UNSIGNED.fullmatch(word):
        raise ValueError(word)
    return int(word)


def told_line(text):
    """A line of a transcript, by its words."""
    kind, node, *rest = text.split(" ", 3)
    if kind in ("learn", "answer") and len(rest) == 2:
        return Told(kind, natural(node), natural(rest[0]), rest[1])
    if kind == "reply" and len(rest) == 2:
        return Told(kind, natural(node), natural(rest[1]), rest[0])
    if kind in ("refuse", "stop", "restore") and len(rest) == 1:
        return Told(kind, natural(node), natural(rest[0]))
    if kind == "round" and rest:
        return Told(kind, natural(node), text=" ".join(rest))
    raise ValueError(text)


def told_lines(transcript):
    """All lines of a transcript, each of which ends with a line feed."""
    lines = transcript.split("\n")
    told = []
    for i, text in enumerate(lines[:-1], 1):
        try:
            told.append(told_line(text))
        except ValueError:
            raise Unexplained(i, "it is no line of a transcript") from None
    if lines[-1]:
        raise Unexplained(len(lines), "the last line has no end")
    return told


# Records in files.


class Checkpoint(NamedTuple):
    """A node's record Checkpoint: without one the position is 0, and there is no text."""
    position: int
    text: bytes = b""


def checkpoint(record):
    """What a record Checkpoint says. The promise in it is passed over."""
    promises = {0: 5, 1: 14}
    if len(record) < 5 or record[4] not in promises:
        raise Unexplained(1, "a checkpoint is not well-formed: %s" % record[:14].hex())
    return Checkpoint(int.from_bytes(record[:4], "big"), record[promises[record[4]]:])


def checkpoints(folder, nodes):
    """The checkpoints of so many nodes that keep their records in the folder. Nobody writes there."""
    found = []
    for node in range(nodes):
        connection = sqlite3.connect("file:%s?immutable=1" % os.path.join(folder, "node%d.db" % node), uri=True)
        rows = connection.execute("SELECT v FROM record WHERE k = X'43'").fetchall()
        connection.close()
        found.append(checkpoint(rows[0][0]) if rows else Checkpoint(0))
    return found


# Readings: which event told which lines.


class Reading(NamedTuple):
    """What is known of the nodes after some events that told some lines. Chains are numbers of `Chains`."""
    line: int           # how many lines are read
    down: int           # nodes that are down, as bits
    armed: int          # nodes whose next put or trim fails, as bits
    late: int           # of these, the nodes at which it is written all the same, as bits
    unread: int         # nodes whose records can't be read at the next restart, as bits
    floors: tuple       # of each node, the position of its checkpoint
    written: tuple      # of each node, the positions of all checkpoints that it has written, as bits
    learnt: tuple       # of each node, the slots that a snapshot stands for or that it has learnt in this life, as bits
    waiting: tuple      # of each node, the requests that wait there
    accepted: int       # chain of the submissions that were accepted, by their lines of the schedule
    answered: int       # chain of answers: line, and the query's line of the schedule
    replied: int        # chain of replies: line and place


class Chains:
    """Lists that share their beginnings, each known by a number; 0 is the empty one."""

    def __init__(self):
        self.links, self.known = [(0, None)], {}

    def add(self, chain, item):
        key = (chain, item)
        if key not in self.known:
            self.known[key] = len(self.links)
            self.links.append(key)
        return self.known[key]

    def items(self, chain):
        """The items of a chain, from its first one on."""
        found = []
        while chain:
            chain, item = self.links[chain]
            found.append(item)
        return found[::-1]


def prefix(bits):
    """The first slot that isn't learnt: how many of the lowest bits are ones."""
    return (~bits & (bits + 1)).bit_length() - 1


def changed(items, place, item):
    """A tuple with another item at a place."""
    return items[:place] + (item,) + items[place + 1:]


class Reader:
    """Reads a transcript along a schedule's events."""

    def __init__(self, nodes, events, told, memory, most):
        self.nodes, self.events, self.told, self.memory, self.most = nodes, events, told, memory, most
        self.chains = Chains()
        self.by_line = {event.line: event for event in events}
        self.names = {0: frozenset()}       # of a chain of accepted submissions, the requests' names
        self.latest = {}                    # of a line that tells a learnt slot, the last event that may have told it
        self.furthest = 0
        self.log = {}

    def run(self):
        """All readings of the whole transcript; or the first line that none gets past."""
        self.collect()
        readings = self.beginnings()
        for event in self.events:
            readings = set().union(*(self.read(reading, event) for reading in readings))
            if len(readings) > self.most:
                raise Undecided("more than %d readings at line %d of the schedule" % (self.most, event.line))
        ends = [reading for reading in readings if reading.line == len(self.told)]
        if not ends:
            raise Unexplained(self.furthest + 1, "no event tells it here" if self.furthest < len(self.told) else "a line is missing")
        return ends

    def beginnings(self):
        """All nodes are up, or, where memory may be refused, some are not."""
        none = (0,) * self.nodes
        empty = none, none, none, (frozenset(),) * self.nodes
        downs = range(2 ** self.nodes) if self.memory else (0,)
        return {Reading(0, down, 0, 0, 0, *empty, 0, 0, 0) for down in downs}

    def collect(self):
        """The command of each slot that any node has learnt: there is one."""
        for i, line in enumerate(self.told, 1):
            if line.node >= self.nodes:
                raise Unexplained(i, "there is no such node")
            if line.kind == "restore" and not 0 < line.number <= MOST_SLOTS:
                raise Unexplained(i, "no checkpoint stands there")
            if line.kind == "learn":
                if line.number >= MOST_SLOTS:
                    raise Unexplained(i, "the log has no such slot")
                if self.log.setdefault(line.number, line.text) != line.text:
                    raise Unexplained(i, "slot %d was learnt as %s" % (line.number, self.log[line.number]))

    def next(self, reading):
        """The line that is read next, or None."""
        self.furthest = max(self.furthest, reading.line)
        return self.told[reading.line] if reading.line < len(self.told) else None

    def read(self, reading, event):
        """All readings after one more event."""
        if event.kind in ("deliver", "drop", "flush", "round", "fault", "restart"):
            return getattr(self, event.kind)(reading, event)
        if reading.down >> event.node & 1:
            return self.refused(reading, event.node, 41)
        return getattr(self, event.kind)(reading, event)

    # What single lines tell.

    def refused(self, reading, node, *codes):
        """The reading behind `refuse` with one of these codes, if it comes next."""
        line = self.next(reading)
        if line and line.kind == "refuse" and line.node == node and line.number in codes:
            return [reading._replace(line=reading.line + 1)]
        return []

    def stopped(self, reading, nodes):
        """The reading behind `stop` of one of these nodes, if it comes next: a put of it fails, or memory is refused."""
        line = self.next(reading)
        if not line or line.kind != "stop" or line.node not in nodes:
            return []
        bit = 1 << line.node
        armed = reading.armed & bit and line.number == 46
        if not armed and not (self.memory and line.number == MEMORY) or reading.down & bit:
            return []
        # Memory may run out before the put or after it.
        disarmed = [reading.armed & ~bit] if armed else {reading.armed, reading.armed & ~bit}
        return [reading._replace(line=reading.line + 1, down=reading.down | bit, armed=left, late=reading.late & left,
                                 learnt=changed(reading.learnt, line.node, 0),
                                 waiting=changed(reading.waiting, line.node, frozenset())) for left in disarmed]

    def learnt(self, reading, event):
        """The reading behind `learn` and the replies that rest on it, if they come next."""
        line = self.next(reading)
        if not line or line.kind != "learn" or reading.down >> line.node & 1 or reading.learnt[line.node] >> line.number & 1:
            return []
        if line.text != "noop" and line.text not in self.accepted(reading.accepted):
            return []
        before = reading.learnt[line.node]
        after = before | 1 << line.number
        self.latest[reading.line] = max(event.line, self.latest.get(reading.line, 0))
        behind = reading._replace(line=reading.line + 1, learnt=changed(reading.learnt, line.node, after))
        return self.replies(behind, line.node, range(prefix(before), prefix(after)))

    def restored(self, reading):
        """The reading behind `restore` and the replies to what the node had learnt from there on, if they come next."""
        line = self.next(reading)
        if not line or line.kind != "restore" or reading.down >> line.node & 1:
            return []
        before = reading.learnt[line.node]
        have_it = any(reading.written[other] >> line.number & 1 for other in range(self.nodes) if other != line.node)
        if not have_it or line.number <= prefix(before):
            return []
        after = before | (1 << line.number) - 1
        behind = reading._replace(line=reading.line + 1, learnt=changed(reading.learnt, line.node, after))
        return self.replies(behind, line.node, range(line.number, prefix(after)))

    def replies(self, reading, node, places):
        """The reading behind the replies to requests that waited and stand at these places: all of them, in order."""
        for place in places:
            name = self.log[place]
            waiting = reading.waiting[node]
            if name in waiting:
                line = self.next(reading)
                if not line or line.kind != "reply" or line.node != node or line.text != name:
                    return []
                reading = reading._replace(line=reading.line + 1, waiting=changed(reading.waiting, node, waiting - {name}),
                                           replied=self.chains.add(reading.replied, (reading.line, place)))
        return [reading]

    def accepted(self, chain):
        """The names of the requests of a chain of accepted submissions."""
        if chain not in self.names:
            before, line = self.chains.links[chain]
            self.names[chain] = self.accepted(before) | {self.by_line[line].request}
        return self.names[chain]

    # What events tell. A restart ends a life; of a node that is up it tells nothing, unless memory is refused.

    def drop(self, reading, event):
        return [reading]

    def fault(self, reading, event):
        """One is armed at a time: a later one takes the place of an earlier one."""
        bit = 1 << event.node
        if event.what == "read":
            return [reading._replace(armed=reading.armed & ~bit, late=reading.late & ~bit, unread=reading.unread | bit)]
        late = reading.late | bit if event.what == "new" else reading.late & ~bit
        return [reading._replace(armed=reading.armed | bit, late=late, unread=reading.unread & ~bit)]

    def restart(self, reading, event):
        """A new life begins at the position of the checkpoint."""
        known = (1 << reading.floors[event.node]) - 1
        up = reading._replace(down=reading.down & ~(1 << event.node), learnt=changed(reading.learnt, event.node, known),
                              waiting=changed(reading.waiting, event.node, frozenset()))
        if not reading.unread >> event.node & 1:
            return [up] + (self.stopped(up, [event.node]) if self.memory else [])
        line = self.next(up)
        if line and (line.kind, line.node, line.number) == ("stop", event.node, 46):
            bit = 1 << event.node
            return [up._replace(line=up.line + 1, down=up.down | bit, unread=up.unread & ~bit)]
        return self.stopped(up, [event.node]) if self.memory else []

    def submit(self, reading, event):
        """Refused at a full log (42), as too long (45) or where 64 others wait (44); else the request waits."""
        position, waiting = prefix(reading.learnt[event.node]), reading.waiting[event.node]
        if position == MOST_SLOTS:
            return self.refused(reading, event.node, 42)
        if event.what[0] == "put" and len(event.what[2][1]) > MOST_PUT:
            return self.refused(reading, event.node, 45)
        if len(waiting) >= MOST_WAITING and event.request not in waiting:
            return self.refused(reading, event.node, 44)
        kept = reading._replace(waiting=changed(reading.waiting, event.node, waiting | {event.request}),
                                accepted=self.chains.add(reading.accepted, event.line))
        return [kept] + (self.stopped(reading, [event.node]) if self.memory else [])

    def timeout(self, reading, event):
        """A campaign begins, unless its round can't be written."""
        if prefix(reading.learnt[event.node]) == MOST_SLOTS:
            return self.refused(reading, event.node, 42)
        # The campaign's round is always written.
        quiet = [] if reading.armed >> event.node & 1 else [reading]
        return quiet + self.stopped(reading, [event.node])

    def tick(self, reading, event):
        return [reading] + (self.stopped(reading, [event.node]) if self.memory else [])

    def checkpoint(self, reading, event):
        """Refused where nothing was executed since the last one (49); else it is written, or the node stops."""
        node, position = event.node, prefix(reading.learnt[event.node])
        if position <= reading.floors[node]:
            return self.refused(reading, node, 49)
        written = reading._replace(floors=changed(reading.floors, node, position),
                                   written=changed(reading.written, node, reading.written[node] | 1 << position))
        armed, line = reading.armed >> node & 1, self.next(reading)
        is_late = reading.late >> node & 1 and line and line.number == 46
        return ([] if armed else [written]) + self.stopped(written if is_late else reading, [node])

    def trim(self, reading, event):
        """Nothing is told, whether votes were taken out or none stood there; where some did it may fail."""
        return [reading] + (self.stopped(reading, [event.node]) if reading.floors[event.node] else [])

    def query(self, reading, event):
        """An answer at the first slot that the node hasn't learnt."""
        line = self.next(reading)
        told = self.refused(reading, event.node, MEMORY) if self.memory else []
        if line and line.kind == "answer" and line.node == event.node and line.number == prefix(reading.learnt[event.node]):
            answered = self.chains.add(reading.answered, (reading.line, event.line))
            told.append(reading._replace(line=reading.line + 1, answered=answered))
        return told

    def deliver(self, reading, event):
        """Nothing, or one slot that is learnt or a restore with what rests on it, or a stop. In a round by hand nobody is restored."""
        restored = [] if event.kind == "round" else self.restored(reading)
        return [reading] + self.learnt(reading, event) + restored + self.stopped(reading, range(self.nodes))

    def flush(self, reading, event):
        return self.delivered({reading}, event)

    def delivered(self, readings, event):
        """All readings behind any number of deliveries."""
        found, new = set(readings), list(readings)
        while new:
            new = [after for reading in new for after in self.deliver(reading, event)[1:] if after not in found]
            found.update(new)
        return found

    def round(self, reading, event):
        """The end of a round by hand, behind what its deliveries told."""
        node, members = event.node, event.what
        is_quorum = node in members and len(set(members)) == len(members) and 2 * len(members) > self.nodes
        if not is_quorum:
            return self.ended(reading, node, "noquorum")
        down = [member for member in sorted(members) if reading.down >> member & 1]
        if down:
            return self.ended(reading, node, "down %d" % down[0])
        position = prefix(reading.learnt[node])
        ahead = [member for member in sorted(members) if position < reading.floors[member]]
        if ahead:
            return self.ended(reading, node, "behind %d" % ahead[0])
        if position == MOST_SLOTS:
            return self.ended(reading, node, "refused 42")
        return [after for behind in self.delivered({reading}, event) for after in self.phased(behind, reading, node, members, position)]

    def phased(self, behind, before, node, members, position):
        """The reading behind the end of a round that began, if it comes next."""
        fallen = behind.down & ~before.down
        if fallen:
            return [after for member in members if fallen == 1 << member for after in self.ended(behind, node, "stopped %d" % member)]
        if behind.learnt[node] >> position & 1:
            return self.ended(behind, node, "decided %d" % position)
        line = self.next(behind)
        if line and line.text.startswith("low ") and behind.line == before.line:
            ballot = line.text[len("low "):].split(".")
            is_ballot = len(ballot) == 2 and all(map(reference_parser.UNSIGNED.fullmatch, ballot))
            if is_ballot and int(ballot[0]) and int(ballot[1]) < self.nodes:
                return self.ended(behind, node, line.text)
        return []

    def ended(self, reading, node, text):
        """The reading behind this end of a round, if it comes next."""
        line = self.next(reading)
        if line and line.kind == "round" and line.node == node and line.text == text:
            return [reading._replace(line=reading.line + 1)]
        return []


# Lists: what a database that executes the log replies and answers.


class Lists:
    """Executes the log of one reading, with each operation that a request's submissions carried."""

    def __init__(self, reader, reading):
        self.reader, self.told, self.most = reader, reader.told, reader.most
        self.submissions = {}
        for event in (reader.by_line[line] for line in reader.chains.items(reading.accepted)):
            self.submissions.setdefault(event.request, []).append(event)
        self.answers = [(line, reader.by_line[asked].what) for line, asked in reader.chains.items(reading.answered)]
        self.replied = reader.chains.items(reading.replied)
        self.texts = {}

    def explain(self, lines, left=()):
        """Whether a list explains the first lines, by their number, and the checkpoints that are left. `self.list` has one then."""
        answers, replies, texts = {}, {}, {}
        for found in left:
            texts.setdefault(found.position, set()).add(found.text)
        for line, query in self.answers:
            if line < lines:
                answers.setdefault(self.told[line].number, []).append((query, self.told[line].text))
        for line, place in self.replied:
            if line < lines:
                replies.setdefault(place, set()).add(self.told[line].number)
        log, latest = {}, {}
        for line, told in enumerate(self.told[:lines]):
            if told.kind == "learn":
                log.setdefault(told.number, told.text)
                latest.setdefault(told.number, self.reader.latest.get(line, 0))
        return all(place in log for place in range(max(texts, default=0))) and self.execute(log, latest, answers, replies, texts)

    def execute(self, log, latest, answers, replies, texts):
        """Whether some database passes all answers, replies and texts. One is kept of those that agree in all that counts later."""
        counted, worlds, length = {}, [({}, {}, ())], max(list(answers) + list(texts) + [place + 1 for place in replies], default=0)
        for place in range(length + 1):
            worlds = [world for world in worlds if all(self.answer(world[0], query) == text for query, text in answers.get(place, ()))]
            if place in texts:
                worlds = [world for world in worlds if texts[place] == {snapshot(world, counted)}]
            if place < length:
                worlds = self.executed(worlds, log[place], latest[place], counted, replies.get(place, set()))
            if len(worlds) > self.most:
                raise Undecided("more than %d databases at position %d" % (self.most, place + 1))
            if not worlds:
                return False
        self.list = worlds[0][2]
        return True

    def executed(self, worlds, name, latest, counted, codes):
        """The databases after one more command, where each reply is one of these codes."""
        if name == "noop":
            return [(database, kept, done + (None,)) for database, kept, done in worlds] if not codes else []
        client, number = (int(part) for part in name.split(":"))
        last = counted.get(client, 0)
        if number == last + 1:
            counted[client] = number
            operations = self.operations(name, latest)
            return self.distinct(self.apply(world, client, operation, codes) for world in worlds for operation in operations)
        reply = PAST if number < last else GAP if number > last else None
        return [(database, kept, done + (None,)) for database, kept, done in worlds
                if codes <= {kept[client] if reply is None else reply}]

    def operations(self, name, latest):
        """The operations that were submitted under a name by then, each once."""
        found = []
        for event in self.submissions.get(name, ()):
            if event.line < latest and event.what not in found:
                found.append(event.what)
        return found

    def apply(self, world, client, operation, codes):
        """What a database, with the replies that are kept, comes to by an operation; None where its reply is another."""
        database, kept, done = world
        reply, after = reference_db.applied(database, operation)
        return (after, {**kept, client: reply}, done + (operation,)) if codes <= {reply} else None

    def distinct(self, worlds):
        """One of the worlds that have the same database and the same kept replies."""
        worlds, found = [world for world in worlds if world is not None], {}
        if len(worlds) < 2:
            return worlds
        for world in worlds:
            found.setdefault((frozenset(world[0].items()), frozenset(world[1].items())), world)
        return list(found.values())

    def answer(self, database, query):
        """The text that answers a query; that of one feature is worked out once."""
        if query[0] in ("count", "within"):
            return reference_db.answer(database, query)
        key = (query, database.get(query[1]))
        if key not in self.texts:
            self.texts[key] = reference_db.answer(database, query)
        return self.texts[key]


def snapshot(world, counted):
    """The snapshot text of a database with the replies that are kept, and the clients' last numbers that counted."""
    database, kept, _ = world
    return reference_db.snapshot_text(database, {client: (counted[client], reply) for client, reply in kept.items()})


def lowest_that_fails(passes, length):
    """The least number of lines that doesn't pass, where all of them don't."""
    low, high = 0, length
    while high - low > 1:
        middle = (low + high) // 2
        low, high = (middle, high) if passes(middle) else (low, middle)
    return high


class Explanation(NamedTuple):
    """What explains a run: the learnt commands by slot, and the operations of the list as far as anything rests on them."""
    log: dict
    operations: tuple


def explain(schedule, transcript, memory=False, most=100_000, folder=None):
    """The explanation of a run; or `Unexplained`, or `Undecided`. The schedule is right, and its bytes were run. Where the nodes kept
    their records in a folder, it explains the checkpoints there too."""
    nodes, events = reference_parser.read(schedule)
    reader = Reader(nodes, events, told_lines(transcript), memory, most)
    first, readings, left, is_other = None, reader.run(), [], False
    if folder:
        found = checkpoints(folder, nodes)
        left = [it for it in found if it.position]
        readings = [reading for reading in readings if reading.floors == tuple(it.position for it in found)]
        if not readings:
            raise Unexplained(len(reader.told), "no reading has the checkpoints at %s" % ", ".join(str(it.position) for it in found))
    for reading in {reading[-3:]: reading for reading in readings}.values():
        lists = Lists(reader, reading)
        if lists.explain(len(reader.told), left):
            return Explanation(reader.log, lists.list)
        is_other |= bool(left) and lists.explain(len(reader.told))
        line = lowest_that_fails(lists.explain, len(reader.told))
        first = line if first is None else max(first, line)
    raise Unexplained(first, "no list has the text of each checkpoint" if is_other else "no list has all of the lines up to it")


def main():
    parser = argparse.ArgumentParser(description=__doc__, formatter_class=argparse.RawDescriptionHelpFormatter)
    parser.add_argument("schedule")
    parser.add_argument("transcript")
    parser.add_argument("--db", metavar="DIR", help="the folder in which the nodes kept their records")
    parser.add_argument("--memory", action="store_true", help="requests for memory were refused")
    parser.add_argument("--most", type=int, default=100_000, metavar="N", help="how many readings and databases are kept")
    parser.add_argument("--list", action="store_true", help="print the learnt commands")
    words = parser.parse_args()
    with open(words.schedule, "rb") as file:
        schedule = file.read()
    with open(words.transcript, encoding="ascii", newline="") as file:
        transcript = file.read()
    try:
        explanation = explain(schedule, transcript, words.memory, words.most, words.db)
    except reference_parser.Faulty as fault:
        sys.exit("%s has fault %d in line %d, so nothing is to be explained" % (words.schedule, fault.fault, fault.line))
    except Unexplained as fault:
        print(fault)
        sys.exit(1)
    except Undecided as fault:
        print("undecided: %s" % fault)
        sys.exit(2)
    print("explained")
    if words.list:
        for slot in sorted(explanation.log):
            print(slot, explanation.log[slot])


if __name__ == "__main__":
    main()

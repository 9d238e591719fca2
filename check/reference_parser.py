"""Reads the lines of a schedule after docs/FORMATS.md alone, and reports the first faulty line with its lowest fault.

An event is its line's number, its kind, and what the kind needs: `Event(3, "submit", 0, "7:1", ("remove", "bus-7"))`.
"""

import re
from typing import Any, NamedTuple

import reference_db

NODES = {b"nodes 3": 3, b"nodes 5": 5, b"nodes 7": 7}
LARGEST = 2**64 - 1
ANY = None

# How many words a line has, by its first one; of a submission and a query, by its kind.
WORDS = {"deliver": 2, "drop": 2, "flush": 1, "timeout": 2, "tick": 2, "checkpoint": 2, "trim": 2, "restart": 2, "fault": 3, "round": ANY}
SUBMISSIONS = {"put": 6, "append": 9, "remove": 6}
QUERIES = {"at": 5, "cut": 6, "ever": 10, "always": 10, "within": 9, "get": 4, "count": 3}

UNSIGNED = re.compile("0|[1-9][0-9]*", re.ASCII)
SIGNED = re.compile("0|-?[1-9][0-9]*", re.ASCII)


class Event(NamedTuple):
    """What a line does. `node` is the frame's number where the kind is of a frame."""
    line: int
    kind: str
    node: int = 0
    request: str = ""
    what: Any = None


class Faulty(Exception):
    """The first faulty line and its lowest fault."""

    def __init__(self, line, fault):
        super().__init__(line, fault)
        self.line, self.fault = line, fault


class Fault(Exception):
    """A fault of one line."""


def number(word, lowest, highest, form=UNSIGNED):
    """A number between two others, both included."""
    if not form.fullmatch(word) or len(word) > 20 or not lowest <= int(word) <= highest:
        raise Fault(5)
    return int(word)


def name(word):
    if not reference_db.ID.fullmatch(word):
        raise Fault(5)
    return word


def time(word):
    instant = reference_db.instant(word)
    if instant is None:
        raise Fault(5)
    return instant


def coordinate(word):
    return number(word, -reference_db.COORDINATE, reference_db.COORDINATE, SIGNED)


def period(words):
    """A begin, before which a mark may stand, and an end, behind which one may stand."""
    begin, end = words
    begin_in, end_in = not begin.startswith("("), not end.endswith(")")
    begin, end = begin[1:] if begin[:1] in ("[", "(") else begin, end[:-1] if end[-1:] in ("]", ")") else end
    at = reference_db.Period(time(begin), time(end), begin_in, end_in)
    if at.begin > at.end or at.begin == at.end and not (begin_in and end_in):
        raise Fault(5)
    return at


def rectangle(words):
    x0, y0, x1, y1 = (coordinate(word) for word in words)
    if x0 > x1 or y0 > y1:
        raise Fault(5)
    return x0, y0, x1, y1


def check_kind(words):
    """Refuses a first word, a kind of submission or a kind of query that isn't there."""
    first = words[0]
    if first == "submit":
        known = len(words) < 5 or words[4] in SUBMISSIONS
    elif first == "query":
        known = len(words) < 3 or words[2] in QUERIES
    else:
        known = first in WORDS or first == "nodes"
    if not known:
        raise Fault(2)


def check_count(words):
    """Refuses a line with fewer or more words than its first word wants."""
    first = words[0]
    if first == "submit":
        wanted = SUBMISSIONS[words[4]] if len(words) > 4 else -1
    elif first == "query":
        wanted = QUERIES[words[2]] if len(words) > 2 else -1
    else:
        wanted = WORDS[first]
    if len(words) < 3 if wanted is ANY else len(words) != wanted:
        raise Fault(4)


def operation(words):
    """What is submitted: the words from the kind on."""
    kind, rest = words[0], words[1:]
    if kind == "remove":
        return kind, name(rest[0])
    if kind == "append":
        return kind, name(rest[0]), (time(rest[1]), coordinate(rest[2]), coordinate(rest[3]))
    try:
        return (kind, *reference_db.document(rest[0]))
    except reference_db.NoDocument:
        raise Fault(6) from None


def query(words):
    """What is asked: the words from the kind on, as `reference_db.answer` takes them."""
    kind, rest = words[0], words[1:]
    if kind == "count":
        return (kind,)
    if kind == "get":
        return kind, name(rest[0])
    if kind == "at":
        return kind, name(rest[0]), time(rest[1])
    if kind == "cut":
        return kind, name(rest[0]), period(rest[1:])
    if kind == "within":
        return kind, period(rest[:2]), rectangle(rest[2:])
    return kind, name(rest[0]), period(rest[1:3]), rectangle(rest[3:])


def event(line, words, nodes):
    """The event of a line whose kind and count of words are right."""
    first = words[0]
    if first == "flush":
        return Event(line, first)
    if first in ("deliver", "drop"):
        return Event(line, first, number(words[1], 0, LARGEST))
    node = number(words[1], 0, nodes - 1)
    if first == "submit":
        client, request = number(words[2], 0, 255), number(words[3], 1, LARGEST)
        return Event(line, first, node, "%d:%d" % (client, request), operation(words[4:]))
    if first == "query":
        return Event(line, first, node, what=query(words[2:]))
    if first == "round":
        return Event(line, first, node, what=[number(word, 0, nodes - 1) for word in words[2:]])
    if first == "fault":
        if words[2] not in ("old", "new", "read"):
            raise Fault(5)
        return Event(line, first, node, what=words[2])
    return Event(line, first, node)


def words_of(text):
    """The words of a line; the document of a put is one, blanks included."""
    words = text.split(" ")
    return text.split(" ", 5) if words[0] == "submit" and words[4:5] == ["put"] else words


def read_line(line, text, nodes):
    """The event of a later line than the first."""
    if any(not 0x20 <= byte <= 0x7E for byte in text):
        raise Fault(1)
    words = words_of(text.decode())
    check_kind(words)
    if words[0] == "nodes":
        raise Fault(3)
    check_count(words)
    return event(line, words, nodes)


def read_first(text):
    """How many nodes the run has."""
    if any(not 0x20 <= byte <= 0x7E for byte in text):
        raise Fault(1)
    check_kind(words_of(text.decode()))
    if text not in NODES:
        raise Fault(3)
    return NODES[text]


def read(data):
    """How many nodes the run has, and its events; or `Faulty`."""
    lines = [(i, text) for i, text in enumerate(data.split(b"\n"), 1) if text]
    if not lines:
        raise Faulty(1, 3)
    try:
        at = lines[0][0]
        nodes, events = read_first(lines[0][1]), []
        for at, text in lines[1:]:
            events.append(read_line(at, text, nodes))
    except Fault as fault:
        raise Faulty(at, fault.args[0]) from None
    return nodes, events

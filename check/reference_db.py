"""A plain database of its own: documents, operations, the texts of queries and of snapshots, worked out slowly and with fractions.

It is written after docs/FORMATS.md and docs/SPECIFICATION.md alone, and shares nothing with the crates. A sequence is its
interpolation and a tuple of points (t, x, y), t in milliseconds and x, y in millimetres. `one_log.py` stands on it.
"""

import datetime
import json
import re
import typing
from fractions import Fraction

LAST_INSTANT = 253402300799999
COORDINATE = 10_000_000_000
MOST_POINTS = 1024
MOST_FEATURES = 256
DEEPEST = 127
INTERPOLATIONS = ("Discrete", "Step", "Linear")

DONE, UNKNOWN, NOT_LATER, FULL_SEQUENCE, FULL_DATABASE = 0, 21, 22, 23, 24

ID = re.compile(r"[A-Za-z0-9._-]{1,64}", re.ASCII)
DATETIME = re.compile(r"([0-9]{4})-([0-9]{2})-([0-9]{2})T([0-9]{2}):([0-9]{2}):([0-9]{2})(?:\.([0-9]{3}))?Z", re.ASCII)
STRING = re.compile(r'"(?:[^"\\]|\\.)*"')
FIRST_DAY = datetime.date(1970, 1, 1).toordinal()


# Datetimes and documents.


def instant(text):
    """The instant that a text is a datetime of, or None."""
    parts = DATETIME.fullmatch(text)
    if parts is None:
        return None
    year, month, day, hour, minute, second = (int(part) for part in parts.groups()[:6])
    if year < 1970 or hour > 23 or minute > 59 or second > 59:
        return None
    try:
        days = datetime.date(year, month, day).toordinal() - FIRST_DAY
    except ValueError:
        return None
    return ((days * 24 + hour) * 60 + minute) * 60_000 + second * 1000 + int(parts.group(7) or 0)


def instant_text(t):
    """The datetime text of an instant."""
    seconds, milliseconds = divmod(t, 1000)
    days, seconds = divmod(seconds, 86400)
    return "%sT%02d:%02d:%02d.%03dZ" % (datetime.date.fromordinal(FIRST_DAY + days).isoformat(), seconds // 3600,
                                        seconds // 60 % 60, seconds % 60, milliseconds)


class NoDocument(Exception):
    """Why a text stands for no feature: the fault's number, and the element's place where it has one."""

    def __init__(self, fault, place=None):
        super().__init__(fault, place)
        self.fault, self.place = fault, place


class NotWhole:
    """Stands for a number of JSON that isn't written as a whole one."""


def refuse_constant(word):
    raise ValueError(word)


def whole(digits):
    """A number of JSON without a point: `-0` isn't a whole one, nor is what 64 bits don't hold. One that is beyond all is refused."""
    if len(digits) > 300:
        return fraction(digits)
    return NotWhole if digits == "-0" or len(digits) > 20 else int(digits)


def fraction(digits):
    """A number of JSON with a point or an exponent, which no document has. One that is beyond all is refused."""
    if float(digits) in (float("inf"), float("-inf")):
        raise ValueError(digits)
    return NotWhole


def depth(text):
    """How deep arrays and objects of a JSON text lie in one another."""
    deepest = level = 0
    for bracket in re.findall(r"[][{}]", STRING.sub("", text)):
        level += 1 if bracket in "[{" else -1
        deepest = max(deepest, level)
    return deepest


def has_half(text):
    """Whether a JSON text has half of a pair that spells one character."""
    escaped = (string for string in STRING.findall(text) if "\\u" in string)
    return any(0xD800 <= ord(character) <= 0xDFFF for string in escaped for character in json.loads(string))


def json_value(text):
    """The value of a JSON text; of a member that is written twice the last counts."""
    try:
        value = json.loads(text, parse_int=whole, parse_float=fraction, parse_constant=refuse_constant)
    except (ValueError, RecursionError):
        raise NoDocument(1) from None
    if has_half(text) or depth(text) > DEEPEST:
        raise NoDocument(1)
    return value


def is_coordinates(value):
    """Whether a value is an array of two whole numbers in range."""
    return type(value) is list and len(value) == 2 and all(type(n) is int and abs(n) <= COORDINATE for n in value)


def refuse_first(fault, good):
    """Tells the fault at the first place that isn't good."""
    for place, is_good in enumerate(good):
        if not is_good:
            raise NoDocument(fault, place)


def document(text):
    """The id and the sequence of the feature that a text is a document of; else the lowest fault is told."""
    value = json_value(text)
    if type(value) is not dict or set(value) != {"type", "id", "temporalGeometry"}:
        raise NoDocument(2)
    if value["type"] != "Feature":
        raise NoDocument(3)
    name, geometry = value["id"], value["temporalGeometry"]
    if type(name) is not str or not ID.fullmatch(name):
        raise NoDocument(4)
    if type(geometry) is not dict or set(geometry) != {"type", "datetimes", "coordinates", "interpolation"}:
        raise NoDocument(5)
    times, places = geometry["datetimes"], geometry["coordinates"]
    if geometry["type"] != "MovingPoint" or type(times) is not list or type(places) is not list:
        raise NoDocument(5)
    if type(geometry["interpolation"]) is not str or geometry["interpolation"] not in INTERPOLATIONS:
        raise NoDocument(6)
    instants = [instant(time) if type(time) is str else None for time in times]
    refuse_first(7, (t is not None for t in instants))
    refuse_first(8, (is_coordinates(place) for place in places))
    if len(times) != len(places):
        raise NoDocument(9)
    if not times:
        raise NoDocument(10)
    if len(times) > MOST_POINTS:
        raise NoDocument(11)
    refuse_first(12, (i == 0 or instants[i - 1] < t for i, t in enumerate(instants)))
    return name, (geometry["interpolation"], tuple((t, x, y) for t, (x, y) in zip(instants, places)))


def canonical(name, sequence):
    """The canonical document of a feature."""
    interpolation, points = sequence
    geometry = {"coordinates": [[x, y] for _, x, y in points], "datetimes": [instant_text(t) for t, _, _ in points],
                "interpolation": interpolation, "type": "MovingPoint"}
    return json.dumps({"id": name, "temporalGeometry": geometry, "type": "Feature"}, separators=(",", ":"))


# The value at an instant, the cut, ever and always.


def value_at(sequence, t):
    """The position at an instant, or None."""
    interpolation, points = sequence
    listed = {point[0]: point[1:] for point in points}
    if t in listed:
        return listed[t]
    if interpolation == "Discrete" or not points[0][0] <= t <= points[-1][0]:
        return None
    after = next(i for i, point in enumerate(points) if point[0] > t)
    (t0, x0, y0), (t1, x1, y1) = points[after - 1], points[after]
    if interpolation == "Step":
        return x0, y0
    gone = Fraction(t - t0, t1 - t0)
    return x0 + gone * (x1 - x0), y0 + gone * (y1 - y0)


class Period(typing.NamedTuple):
    """From an instant to an instant, each of which is in it or isn't, with all fractions between them."""

    begin: int
    end: int
    begin_in: bool = True
    end_in: bool = True

    def has(self, t):
        """Whether the instant is in it."""
        return (self.begin < t or t == self.begin and self.begin_in) and (t < self.end or t == self.end and self.end_in)


def pieces(sequence, period):
    """What the period has of a sequence, as one or two positions each: an instant at which something is listed, or at which the
    period begins or ends, has one; so has all that lies between two such, if nothing moves there; else it is the straight way
    between the two positions, of which these are not a part."""
    interpolation, points = sequence
    inner = {t for t, _, _ in points if period.begin <= t <= period.end}
    marks = sorted(inner | {period.begin, period.end})
    at = [(value_at(sequence, t),) for t in marks if period.has(t)]
    ways = [] if interpolation == "Discrete" else [(value_at(sequence, a), value_at(sequence, b)) for a, b in zip(marks, marks[1:])]
    if interpolation == "Step":
        # Until the later of the two, where another position may be listed, the earlier one's stays.
        ways = [(a,) for a, b in ways if b is not None]
    return [piece for piece in at + ways if None not in piece]


def cut(sequence, period):
    """The instants with positions that the cut to a period lists, and whether its first and its last one are in it."""
    interpolation, points = sequence
    if not pieces(sequence, period):
        return [], True, True
    ends = set() if interpolation == "Discrete" else {t for t in (period.begin, period.end) if points[0][0] <= t <= points[-1][0]}
    instants = sorted({t for t, _, _ in points if period.has(t)} | ends)
    listed = [(t, *value_at(sequence, t)) for t in instants]
    if interpolation == "Step" and instants[-1] == period.end and not period.end_in:
        listed[-1] = (period.end, *value_at(sequence, Fraction(2 * period.end - 1, 2)))
    return listed, period.has(instants[0]), period.has(instants[-1])


def is_inside(rectangle, x, y):
    x0, y0, x1, y1 = rectangle
    return x0 <= x <= x1 and y0 <= y <= y1


def share_inside(low, high, start, stop):
    """Between which shares of a way from `start` to `stop` a coordinate is at least `low` and at most `high`; None if it never is."""
    if start == stop:
        return (Fraction(0), Fraction(1)) if low <= start <= high else None
    one, other = Fraction(low - start) / (stop - start), Fraction(high - start) / (stop - start)
    return min(one, other), max(one, other)


def meets(rectangle, piece):
    """Whether a piece has a position in the rectangle. The ends of a way are no part of it."""
    if len(piece) == 1:
        return is_inside(rectangle, *piece[0])
    x0, y0, x1, y1 = rectangle
    (ax, ay), (bx, by) = piece
    across, along = share_inside(x0, x1, ax, bx), share_inside(y0, y1, ay, by)
    if across is None or along is None:
        return False
    first, last = max(across[0], along[0]), min(across[1], along[1])
    return first <= last and first < 1 and last > 0


def stays(rectangle, piece):
    """Whether all of a piece is in the rectangle. A way is in it where both of its ends are, as it comes as near to them as one likes."""
    return all(is_inside(rectangle, *place) for place in piece)


def ever(sequence, period, rectangle):
    """yes, no, or none where the sequence has no value in the period."""
    found = pieces(sequence, period)
    return "none" if not found else "yes" if any(meets(rectangle, piece) for piece in found) else "no"


def always(sequence, period, rectangle):
    """yes, no, or none where the sequence has no value in the period."""
    found = pieces(sequence, period)
    return "none" if not found else "yes" if all(stays(rectangle, piece) for piece in found) else "no"


# The database: a dictionary from ids to sequences, which no call changes.


def applied(database, operation):
    """The reply to an operation, and the database after it."""
    kind, name = operation[:2]
    if kind == "put":
        if name not in database and len(database) >= MOST_FEATURES:
            return FULL_DATABASE, database
        return DONE, {**database, name: operation[2]}
    if name not in database:
        return UNKNOWN, database
    if kind == "remove":
        return DONE, {other: sequence for other, sequence in database.items() if other != name}
    interpolation, points = database[name]
    if operation[2][0] <= points[-1][0]:
        return NOT_LATER, database
    if len(points) >= MOST_POINTS:
        return FULL_SEQUENCE, database
    return DONE, {**database, name: (interpolation, points + (operation[2],))}


def numbers(values):
    """Numbers as an answer has them: a whole one as it is, a fraction in lowest terms."""
    return " ".join(str(Fraction(value)) for value in values)


def answer(database, query):
    """The text that answers a query, byte for byte."""
    kind = query[0]
    if kind == "count":
        return "count %d" % len(database)
    if kind == "within":
        found = [name for name in sorted(database) if ever(database[name], *query[1:]) == "yes"]
        return " ".join(["within %d" % len(found)] + found)
    name, words = query[1], query[2:]
    if name not in database:
        return "absent"
    sequence = database[name]
    if kind == "get":
        return "get " + canonical(name, sequence)
    if kind == "at":
        value = value_at(sequence, *words)
        return "at none" if value is None else "at " + numbers(value)
    if kind == "cut":
        listed, begin_in, end_in = cut(sequence, *words)
        if not listed:
            return "cut none"
        mark = "" if begin_in and end_in else " " + "(["[begin_in] + ")]"[end_in]
        return " | ".join(["cut %s %d%s" % (sequence[0], len(listed), mark)] + [numbers(row) for row in listed])
    return "%s %s" % (kind, (ever if kind == "ever" else always)(sequence, *words))


# Snapshots.


def spelled(number, size):
    return number.to_bytes(size, "big", signed=size == 8)


def feature_text(name, sequence):
    """A feature as a snapshot has it: its id, then its interpolation, and its points with their number."""
    interpolation, points = sequence
    head = spelled(len(name), 1) + name.encode() + spelled(INTERPOLATIONS.index(interpolation) + 1, 1) + spelled(len(points), 2)
    return head + b"".join(spelled(value, 8) for point in points for value in point)


def snapshot_text(database, counted):
    """The bytes of a database, and of what is kept of each client: its last number that counted, and the reply to it."""
    features = [feature_text(name, database[name]) for name in sorted(database)]
    clients = [spelled(client, 1) + number.to_bytes(8, "big") + spelled(reply, 1) for client, (number, reply) in sorted(counted.items())]
    return b"".join([spelled(len(features), 2), *features, spelled(len(clients), 2), *clients])

"""Reads tracks of vehicles: CSV, GPX, GeoJSON and MF-JSON, as `import_tracks.py` wants them.

A reader makes tracks of a file's bytes. Numbers stay decimals, as they are written; times become whole milliseconds. What is lost on the
way is told to `Losses`, and what can't be read is `Unusable`, or told and left out where the caller skips such rows.
"""

import csv
import datetime
import io
import json
import os
import re
import xml.parsers.expat
from decimal import Decimal, InvalidOperation
from typing import Any, NamedTuple

LAST_INSTANT = 253402300799999
LONLAT, METRES, MILLIMETRES = "lonlat", "m", "mm"
INTERPOLATIONS = {"Linear": "Linear", "Step": "Step", "Stepwise": "Step", "Discrete": "Discrete", "None": "Discrete"}
STAMP = re.compile(r"(\d{4})[-/]?(\d\d)[-/]?(\d\d)[Tt ](\d\d):?(\d\d)(?::?(\d\d)(?:[.,](\d+))?)?\s*(Z|z|UTC|GMT|[+-]\d\d(?::?\d\d)?)?",
                   re.ASCII)
NUMBER = re.compile(r"[+-]?(?:\d+\.?\d*|\.\d+)(?:[eE][+-]?\d{1,3})?", re.ASCII)
EPSG = re.compile(r"EPSG(?::[\d.]*:|:|/[\d.]+/)(\d{1,7})$", re.IGNORECASE)
FIRST_DAY = datetime.date(1970, 1, 1).toordinal()
# A number of this many is still of that unit: seconds to the year 5138, milliseconds from 1973 on.
UNITS = ((10**11, "seconds", 1000), (10**14, "milliseconds", 1), (10**17, "microseconds", Decimal("0.001")),
         (10**20, "nanoseconds", Decimal("0.000001")))

# The names of columns and of properties, the first that is there.
NAMES = {
    "id": "vehicle_id vehicle vehicleid id device_id device deviceid track_id track trip_id trip bus name".split(),
    "time": "time timestamp datetime date_time utc fixtime gps_time t date".split(),
    "x": "x easting east x_m".split(),
    "y": "y northing north y_m".split(),
    "lon": "lon longitude lng long gps_lon position_lon".split(),
    "lat": "lat latitude gps_lat position_lat".split(),
}
BYTE_ORDER_MARK = b"\xef\xbb\xbf"
MOST_EXAMPLES = 3
TRACK, SEGMENT, POINT = "gpx/trk", "gpx/trk/trkseg", "gpx/trk/trkseg/trkpt"
TIME_LISTS = "datetimes coordTimes times timestamps".split()
READ_PROPERTIES = {name.lower() for name in NAMES["id"] + NAMES["time"] + TIME_LISTS + ["coordinateProperties"]}


class Unusable(Exception):
    """An input that can't be used: where, and why."""

    def __init__(self, where, why):
        super().__init__(where, why)
        self.where, self.why = where, why


class Fix(NamedTuple):
    """Where a vehicle was at an instant in milliseconds, by numbers as the input has them, and where that stands."""
    time: int
    x: Decimal
    y: Decimal
    where: str


class Track(NamedTuple):
    """Fixes of one vehicle: its id as it was given, what the numbers are, and how one gets from fix to fix."""
    name: str
    crs: str
    interpolation: str
    fixes: list


class Asked(NamedTuple):
    """How inputs are to be read, where they don't say it."""
    crs: Any = None
    interpolation: str = "Linear"
    offset: int = 0
    columns: dict = {}
    is_skipping: bool = False


class Losses:
    """What was changed or left out: for each kind how often, some examples, and the greatest error where there is one."""

    def __init__(self):
        self.counts, self.examples, self.errors = {}, {}, {}

    def tell(self, kind, example=None, count=1):
        self.counts[kind] = self.counts.get(kind, 0) + count
        known = self.examples.setdefault(kind, [])
        if example is not None and example not in known and len(known) < MOST_EXAMPLES:
            known.append(example)

    def measure(self, kind, error, unit):
        """The same of a rounding by so much; nothing where it is exact."""
        if error:
            self.tell(kind)
            greatest = max(error, self.errors.get(kind, (0, unit))[0])
            self.errors[kind] = (greatest, unit)

    def lines(self):
        for kind, count in self.counts.items():
            error = ", by at most %.3g %s" % self.errors[kind] if kind in self.errors else ""
            examples = self.examples[kind]
            such = " (%s%s)" % ("; ".join(examples), "; .." if len(examples) == MOST_EXAMPLES and count > MOST_EXAMPLES else "")
            yield "%s: %d%s%s" % (kind, count, error, such if examples else "")


class Reader:
    """Reads the values of inputs, and tells what it changes."""

    def __init__(self, asked, losses):
        self.asked, self.losses = asked, losses

    def refuse(self, where, why):
        """Ends the reading, or tells what is left out."""
        if not self.asked.is_skipping:
            raise Unusable(where, why)
        self.losses.tell("rows, points or features that can't be read, left out", "%s: %s" % (where, why))

    def fix(self, where, time, x, y, crs):
        """A fix as a list of one, or of none where it is left out."""
        try:
            instant = self.instant(time)
            if not 0 <= instant <= LAST_INSTANT:
                raise ValueError("a time before 1970 or after 9999: %s" % time)
            x, y = decimal(x), decimal(y)
            if crs == LONLAT and not (abs(x) <= 180 and abs(y) <= 90):
                raise ValueError("no longitude and latitude: %s %s" % (x, y))
            return [Fix(instant, x, y, where)]
        except ValueError as why:
            self.refuse(where, str(why))
            return []

    def instant(self, given):
        """The milliseconds since 1970 of a datetime's text, or of a number."""
        text = str(given).strip()
        stamp = STAMP.fullmatch(text)
        if stamp:
            milliseconds = self.stamped(*stamp.groups())
        elif NUMBER.fullmatch(text):
            milliseconds = self.counted(Decimal(text))
        else:
            raise ValueError("no time: %s" % (text or "it is empty"))
        whole = int(milliseconds.to_integral_value())
        self.losses.measure("times rounded to whole milliseconds", abs(milliseconds - whole), "ms")
        return whole

    def stamped(self, year, month, day, hour, minute, second, fraction, zone):
        """The milliseconds of a datetime's parts."""
        days = datetime.date(int(year), int(month), int(day)).toordinal() - FIRST_DAY
        if int(hour) > 23 or int(minute) > 59 or int(second or 0) > 60:
            raise ValueError("no time of a day: %s:%s:%s" % (hour, minute, second))
        if second == "60":
            self.losses.tell("times in a leap second, which become the second after it")
        minutes = (days * 24 + int(hour)) * 60 + int(minute) - self.offset(zone)
        return Decimal(minutes * 60_000 + int(second or 0) * 1000) + 1000 * Decimal("0." + (fraction or "0"))

    def offset(self, zone):
        """The minutes by which a datetime is ahead of UTC."""
        if not zone:
            self.losses.tell("times without an offset, taken as %s" % offset_text(self.asked.offset))
            return self.asked.offset
        minutes = 0 if zone in ("Z", "z", "UTC", "GMT") else offset_minutes(zone)
        if minutes:
            self.losses.tell("times with an offset, written in UTC")
        return minutes

    def counted(self, number):
        """The milliseconds of a number, by its size."""
        for limit, unit, milliseconds in UNITS:
            if abs(number) < limit:
                self.losses.tell("times that are numbers, taken as %s since 1970" % unit)
                return number * milliseconds
        raise ValueError("no time: %s" % number)

    def interpolation(self, given, where):
        """The profile's interpolation of a word."""
        if given is None:
            return self.asked.interpolation
        word = given[0] if isinstance(given, list) and len(set(map(str, given))) == 1 else given
        if isinstance(word, str) and word in INTERPOLATIONS:
            return INTERPOLATIONS[word]
        example = "%s: %s" % (where, json.dumps(given, default=str))
        self.losses.tell("interpolations that aren't of the profile, which become Linear", example)
        return "Linear"

    def read(self, path, data, form=None):
        """The tracks of a file's bytes."""
        if not data.removeprefix(BYTE_ORDER_MARK).strip():
            raise Unusable(path, "the file is empty")
        form = form or form_of(data)
        read = {"csv": self.csv, "gpx": self.gpx, "geojson": self.json, "mfjson": self.json}[form]
        return read(path, data)

    def csv(self, path, data):
        """One track for each id, in the order of their first rows."""
        text = text_of(path, data)
        delimiter = delimiter_of(text)
        rows = csv_rows(path, text, delimiter)
        _, head = next(rows)
        at = columns_of(path, head, self.asked.columns)
        for name in (name.strip() for i, name in enumerate(head) if i not in at.values()):
            self.losses.tell("columns left out", json.dumps(name, ensure_ascii=False))
        crs, found = LONLAT if "lon" in at else self.asked.crs or METRES, {}
        for line, row in rows:
            where = "%s:%d" % (path, line)
            if len(row) != len(head):
                self.refuse(where, "%d fields, and the first line has %d" % (len(row), len(head)))
                continue
            name = row[at["id"]].strip() if "id" in at else stem(path)
            values = [self.pointed(row[column], delimiter) for what, column in at.items() if what != "id"]
            found.setdefault(name, []).extend(self.fix(where, *values, crs))
        return [Track(name, crs, self.asked.interpolation, fixes) for name, fixes in found.items()]

    def pointed(self, text, delimiter):
        """A number's text with a point, where a comma can only be that."""
        if "," not in text or delimiter == ",":
            return text
        self.losses.tell("numbers with a comma, taken as a decimal point", text)
        return text.replace(",", ".")

    def gpx(self, path, data):
        """One track for each `trk`."""
        tracks = GpxTracks(path, data, self).tracks
        if not tracks:
            raise Unusable(path, "no track (trk) is in it")
        names = [name for name, _ in tracks]
        made = (stem(path) if names == [""] else "%s-%d" % (stem(path), i) for i in range(1, len(names) + 1))
        return [Track(name or next(made), LONLAT, self.asked.interpolation, fixes) for name, fixes in tracks]

    def json(self, path, data):
        """One track for each feature; points of one vehicle become one."""
        try:
            value = json.loads(text_of(path, data), parse_float=Decimal, parse_constant=str)
        except json.JSONDecodeError as why:
            raise Unusable("%s:%d" % (path, why.lineno), "no JSON: %s" % why.msg) from None
        except (ValueError, RecursionError, InvalidOperation) as why:
            raise Unusable(path, "JSON that can't be read: %s" % why) from None
        points, found = {}, []
        for key in sorted(set(value) - {"features", "type", "crs", "bbox"} if "features" in value else ()):
            self.losses.tell("members %s of a collection, left out" % json.dumps(key))
        for where, feature, crs in features_of(path, value):
            track = JsonFeature(self, path, where, feature, crs).track()
            if track and track.name in points:
                points[track.name].fixes.extend(track.fixes)
            elif track:
                found.append(track)
                if is_point(feature):
                    points[track.name] = track
        return found


class JsonFeature:
    """A feature of GeoJSON or MF-JSON."""

    def __init__(self, reader, path, where, value, crs):
        self.reader, self.losses, self.path, self.where, self.value = reader, reader.losses, path, where, value
        self.crs = crs_of(where, value) or crs or reader.asked.crs or LONLAT

    def track(self):
        """Its track, or none where it has none."""
        moving = self.value.get("temporalGeometry")
        if isinstance(moving, dict):
            self.leave_out(self.value, {"type", "id", "temporalGeometry", "crs", "trs"}, "features")
            return self.moving(moving)
        geometry, properties = self.value.get("geometry"), self.properties()
        if not isinstance(geometry, dict):
            self.losses.tell("features without a geometry, left out", self.where)
            return None
        pairs = self.timed(geometry, properties)
        if pairs is None:
            self.losses.tell("features without times that go with their positions, left out", self.where)
            return None
        fixes = [fix for i, (time, place) in enumerate(pairs) for fix in self.fix(i, time, place)]
        return Track(self.name(is_point(self.value)), self.crs, self.reader.asked.interpolation, fixes)

    def properties(self):
        properties = self.value.get("properties")
        return properties if isinstance(properties, dict) else {}

    def name(self, is_of_point):
        """The id: of a point the vehicle's, which its properties have."""
        properties = {key.lower(): value for key, value in self.properties().items()}
        named = [properties[name] for name in NAMES["id"] if isinstance(properties.get(name), (str, int))]
        own = [self.value["id"]] if isinstance(self.value.get("id"), (str, int)) else []
        candidates = named + own if is_of_point else own + named
        if candidates:
            return str(candidates[0])
        alone = self.where == self.path or is_of_point
        return stem(self.path) if alone else "%s-%s" % (stem(self.path), self.where.rpartition(" ")[2])

    def moving(self, geometry):
        """The track of an MF-JSON geometry, whose parts are joined."""
        parts = geometry.get("prisms") or geometry.get("sequences") or [geometry]
        if not isinstance(parts, list) or not all(isinstance(part, dict) for part in parts):
            self.reader.refuse(self.where, "temporalGeometry: prisms or sequences aren't an array of objects")
            return None
        self.crs = crs_of(self.where, geometry) or self.crs
        kinds = sorted({str(part.get("type", geometry.get("type"))) for part in parts})
        if kinds != ["MovingPoint"]:
            self.losses.tell("features that aren't of MovingPoints, left out", "%s: %s" % (self.where, ", ".join(kinds)))
            return None
        fixes = [fix for part in parts for fix in self.part(part)]
        if len(parts) > 1:
            self.losses.tell("gaps between parts of a track, bridged", self.where, len(parts) - 1)
            self.leave_out(geometry, {"type", "prisms", "sequences", "interpolation", "interpolations", "crs", "trs"}, "geometries")
        word = next((it[key] for it in (geometry, parts[0]) for key in ("interpolation", "interpolations") if key in it), None)
        return Track(self.name(False), self.crs, self.reader.interpolation(word, self.where), fixes)

    def part(self, part):
        """The fixes of one list of datetimes and its list of coordinates."""
        times, places = part.get("datetimes"), part.get("coordinates")
        if not isinstance(times, list) or not isinstance(places, list):
            self.reader.refuse(self.where, "temporalGeometry: datetimes or coordinates aren't an array")
            return []
        if len(times) != len(places):
            self.reader.refuse(self.where, "temporalGeometry: %d datetimes, %d coordinates" % (len(times), len(places)))
            return []
        known = {"type", "datetimes", "coordinates", "interpolation", "interpolations", "crs", "trs", "prisms", "sequences"}
        included = {key for key in ("lower_inc", "upper_inc") if part.get(key) is True}
        self.leave_out(part, known | included, "geometries")
        return [fix for i, pair in enumerate(zip(times, places)) for fix in self.fix(i, *pair)]

    def fix(self, place, time, position):
        """The fix of a time and a position."""
        where = "%s, position %d" % (self.where, place)
        if not isinstance(position, list) or len(position) < 2:
            self.reader.refuse(where, "no position: %s" % json.dumps(position, default=str))
            return []
        if len(position) > 2:
            self.losses.tell("positions of more than two numbers, of which the first two are kept")
        return self.reader.fix(where, time, *position[:2], self.crs)

    def leave_out(self, value, known, whose):
        """Tells of members that nothing is made of."""
        for key in sorted(set(value) - known):
            if value[key] not in (None, {}, []):
                self.losses.tell("members %s of %s, left out" % (json.dumps(key), whose))
        trs = value.get("trs")
        if trs and not re.search("8601|gregorian|utc", json.dumps(trs, default=str), re.IGNORECASE):
            self.losses.tell("times of another trs, taken as UTC", "%s: %s" % (self.where, json.dumps(trs, default=str)))

    def timed(self, geometry, properties):
        """The times and positions of a GeoJSON geometry in pairs, or none."""
        kind, places = geometry.get("type"), geometry.get("coordinates")
        times = self.times(properties)
        for key in sorted(key for key in properties if key.lower() not in READ_PROPERTIES):
            self.losses.tell("properties %s of features, left out" % json.dumps(key))
        if kind == "Point":
            lowered = {key.lower(): value for key, value in properties.items()}
            named = [lowered[name] for name in NAMES["time"] if isinstance(lowered.get(name), (str, int, Decimal))]
            return [(named[0], places)] if named else None
        if kind not in ("LineString", "MultiLineString", "MultiPoint") or not isinstance(places, list):
            return None
        if kind == "MultiLineString":
            if len(places) > 1:
                self.losses.tell("gaps between parts of a track, bridged", self.where, len(places) - 1)
            places, times = flat(places), flat(times) if times else times
        if times is None and all(isinstance(place, list) and len(place) > 3 for place in places):
            return [(place[3], place[:3]) for place in places]
        return list(zip(times, places)) if times is not None and len(times) == len(places) else None

    def times(self, properties):
        """The list of times that a feature has for its positions."""
        nested = properties.get("coordinateProperties")
        holders = (properties, nested if isinstance(nested, dict) else {}, self.value)
        return next((it[key] for it in holders for key in TIME_LISTS if isinstance(it.get(key), list)), None)


class GpxTracks:
    """The tracks of a GPX file, each with its name and its fixes."""

    def __init__(self, path, data, reader):
        self.path, self.reader, self.losses = path, reader, reader.losses
        self.tracks, self.open, self.text, self.point, self.segments = [], [], "", None, 0
        self.parser = xml.parsers.expat.ParserCreate(namespace_separator=" ")
        self.parser.StartElementHandler, self.parser.EndElementHandler = self.start, self.end
        self.parser.CharacterDataHandler = self.characters
        try:
            self.parser.Parse(data, True)
        except xml.parsers.expat.ExpatError as why:
            raise Unusable("%s:%d" % (path, why.lineno), "no XML: %s" % xml.parsers.expat.errors.messages[why.code]) from None

    def start(self, tag, attributes):
        self.open.append(tag.rpartition(" ")[2])
        self.text = ""
        within, where = "/".join(self.open), "%s:%d" % (self.path, self.parser.CurrentLineNumber)
        if self.open[0] != "gpx":
            raise Unusable(where, "no GPX: its element is %s" % self.open[0])
        if within == TRACK:
            self.tracks.append(["", []])
            self.segments = 0
        elif within == SEGMENT:
            self.segments += 1
            if self.segments > 1:
                self.losses.tell("gaps between parts of a track, bridged", where)
        elif within == POINT:
            self.point = {**attributes, "where": where}
        elif within.rpartition("/")[0] in ("gpx", TRACK, SEGMENT, POINT) and within not in (TRACK + "/name", POINT + "/time"):
            self.losses.tell("elements %s of a %s, left out" % tuple(self.open[:-3:-1]))

    def characters(self, text):
        self.text += text

    def end(self, _):
        within = "/".join(self.open)
        if within == TRACK + "/name":
            self.tracks[-1][0] = self.text.strip()
        elif within == POINT + "/time":
            self.point["time"] = self.text
        elif within == POINT:
            self.add()
        self.open.pop()

    def add(self):
        """The point that ends here."""
        point, where = self.point, self.point["where"]
        if "time" not in point:
            self.losses.tell("points without a time, left out", where)
        elif "lon" not in point or "lat" not in point:
            self.reader.refuse(where, "a point without lon or lat")
        else:
            self.tracks[-1][1].extend(self.reader.fix(where, point["time"], point["lon"], point["lat"], LONLAT))


def form_of(data):
    """The form of a file, by its first character."""
    first = data.removeprefix(BYTE_ORDER_MARK).lstrip()[:1]
    return "gpx" if first == b"<" else "geojson" if first in (b"{", b"[") else "csv"


def stem(path):
    """The id of a track that has none."""
    return "vehicle" if path == "-" else os.path.basename(path).partition(".")[0] or "vehicle"


def text_of(path, data):
    """The text of bytes in UTF-8."""
    try:
        return data.decode("utf-8-sig")
    except UnicodeDecodeError as why:
        line = data.count(b"\n", 0, why.start) + 1
        raise Unusable("%s:%d" % (path, line), "no UTF-8: convert it first, as with `iconv -f cp1252 -t utf-8`") from None


def decimal(given):
    """A number as it is written."""
    text = str(given).strip()
    if isinstance(given, bool) or not NUMBER.fullmatch(text):
        raise ValueError("no number: %s" % (text or "it is empty"))
    return Decimal(text)


def offset_minutes(text):
    """The minutes of an offset such as +01:00."""
    parts = re.fullmatch(r"([+-])(\d\d)(?::?(\d\d))?", text, re.ASCII)
    if not parts or int(parts[2]) > 23 or int(parts[3] or 0) > 59:
        raise ValueError("no offset: %s" % text)
    return (-1 if parts[1] == "-" else 1) * (int(parts[2]) * 60 + int(parts[3] or 0))


def datetime_text(t):
    """The datetime of an instant in milliseconds."""
    seconds, milliseconds = divmod(t, 1000)
    days, seconds = divmod(seconds, 86_400)
    day = datetime.date.fromordinal(FIRST_DAY + days).isoformat()
    return "%sT%02d:%02d:%02d.%03dZ" % (day, seconds // 3600, seconds // 60 % 60, seconds % 60, milliseconds)


def offset_text(minutes):
    return "UTC" if minutes == 0 else "%s%02d:%02d" % ("-" if minutes < 0 else "+", abs(minutes) // 60, abs(minutes) % 60)


def delimiter_of(text):
    """What separates the names of the first line most often."""
    return max(",;\t|", key=text.lstrip("\r\n").splitlines()[0].count)


def csv_rows(path, text, delimiter):
    """The rows that aren't empty, each with the line at which it ends."""
    rows = csv.reader(io.StringIO(text, newline=""), delimiter=delimiter, strict=True)
    try:
        for row in rows:
            if row:
                yield rows.line_num, row
    except csv.Error as why:
        raise Unusable("%s:%d" % (path, rows.line_num), "no row of CSV: %s" % why) from None


def columns_of(path, head, asked):
    """Where in a row the time and the two coordinates are, and the id, if it is there."""
    names = [name.strip().lower() for name in head]
    at = {}
    for what, known in NAMES.items():
        known = [asked[what].lower()] if what in asked else known
        at.update({what: names.index(name) for name in known[::-1] if name in names})
        if what in asked and what not in at:
            raise Unusable("%s:1" % path, "no column %s" % asked[what])
    if "time" not in at:
        raise Unusable("%s:1" % path, "no column of times (%s): name it with --columns time=NAME" % ", ".join(NAMES["time"]))
    pairs = [("x", "y"), ("lon", "lat")] if {"x", "y"} & set(asked) else [("lon", "lat"), ("x", "y")]
    found = [pair for pair in pairs if set(pair) <= set(at)]
    if not found:
        raise Unusable("%s:1" % path, "no columns lon and lat, or x and y: name them with --columns lon=NAME,lat=NAME")
    return {what: at[what] for what in ("id", "time", *found[0]) if what in at}


def flat(lists):
    """The elements of lists in a list."""
    return [element for part in lists for element in (part if isinstance(part, list) else [part])]


def is_point(feature):
    geometry = feature.get("geometry")
    return isinstance(geometry, dict) and geometry.get("type") == "Point" and not isinstance(feature.get("temporalGeometry"), dict)


def features_of(path, value):
    """The features of a JSON value, each with where it is and the crs around it."""
    kind = value.get("type") if isinstance(value, dict) else None
    if kind in ("MovingPoint", "MovingGeometryCollection"):
        return [(path, {"type": "Feature", "temporalGeometry": value}, None)]
    if kind == "Feature":
        return [(path, value, None)]
    features = value if isinstance(value, list) else value.get("features") if kind == "FeatureCollection" else None
    if not isinstance(features, list):
        raise Unusable(path, "no Feature, FeatureCollection or MovingPoint")
    crs = crs_of(path, value) if isinstance(value, dict) else None
    found = [("%s, feature %d" % (path, i), feature, crs) for i, feature in enumerate(features)]
    wrong = next((where for where, feature, _ in found if not isinstance(feature, dict) or feature.get("type") != "Feature"), None)
    if wrong:
        raise Unusable(wrong, "no Feature")
    return found


def crs_of(where, value):
    """The crs that an object names: `lonlat` or `EPSG:N`; none where it names none."""
    crs = value.get("crs")
    if crs is None:
        return None
    properties = crs.get("properties") if isinstance(crs, dict) else None
    name = crs if isinstance(crs, str) else (properties.get("name") or properties.get("href")) if isinstance(properties, dict) else None
    known = crs_named(name) if isinstance(name, str) else None
    if known is None:
        raise Unusable(where, "a crs that isn't known: %s" % json.dumps(crs, default=str))
    return known


def crs_named(name):
    """The same of a name, as `EPSG:25833`, `urn:ogc:def:crs:EPSG::25833`, `http://www.opengis.net/def/crs/OGC/1.3/CRS84`."""
    if re.search("CRS84h?$", name):
        return LONLAT
    code = EPSG.search(name)
    if not code:
        return None
    return LONLAT if code[1] in ("4326", "4979") else "EPSG:" + code[1]

#!/usr/bin/env python3
"""Tries `tools/import_tracks.py`: small inputs of each form, made here, have to become the fleet that was worked out by hand.

    check/import_tracks_selftest.py [PROGRAM]

Each schedule is read by `reference_parser.py` and executed on `reference_db.py`: every reply has to be 0, and each document the
canonical one of the feature that is there in the end. What is told on standard error has to be just the listed lines. PROGRAM, `mfpx`,
replays each schedule too, with a `get` of each vehicle, and `mfpx check` reads each document. Where pyproj isn't there, a stand-in with
Krueger's series takes its place. It ends with 1 where something was wrong, and prints what.
"""

import argparse
import functools
import importlib.util
import json
import os
import subprocess
import sys
import tempfile
from typing import Any, NamedTuple

import reference_db
import reference_parser

HERE = os.path.dirname(os.path.abspath(__file__))
TOOL = os.path.join(os.path.dirname(HERE), "tools", "import_tracks.py")
EIGHT = reference_db.instant("2024-05-01T08:00:00Z")
SECONDS = "times that are numbers, taken as seconds since 1970: %d"
ABSENT = 'raise ImportError("pyproj")\n'
STAND_IN = '''
from math import atanh, atan, cos, cosh, radians, sin, sinh, sqrt, inf
from types import SimpleNamespace as It

exceptions = It(CRSError=KeyError)
A, N = 6378137, 1 / 298.257223563 / (2 - 1 / 298.257223563)
RADIUS = A / (1 + N) * (1 + N**2 / 4 + N**4 / 64)
SERIES = (N / 2 - 2 * N**2 / 3 + 5 * N**3 / 16 + 41 * N**4 / 180, 13 * N**2 / 48 - 3 * N**3 / 5 + 557 * N**4 / 1440,
          61 * N**3 / 240 - 103 * N**4 / 140, 49561 * N**4 / 161280)


def projected(zone, south, lon, lat):
    """Longitude and latitude in metres of a zone, after Krueger."""
    if abs(lat) >= 90:
        return inf, inf
    phi, across, e = radians(lat), radians(lon - 6 * zone + 183), 2 * sqrt(N) / (1 + N)
    t = sinh(atanh(sin(phi)) - e * atanh(e * sin(phi)))
    xi, eta = atan(t / cos(across)), atanh(sin(across) / sqrt(1 + t * t))
    x = eta + sum(a * cos(2 * j * xi) * sinh(2 * j * eta) for j, a in enumerate(SERIES, 1))
    y = xi + sum(a * sin(2 * j * xi) * cosh(2 * j * eta) for j, a in enumerate(SERIES, 1))
    return 500_000 + 0.9996 * RADIUS * x, (10_000_000 if south else 0) + 0.9996 * RADIUS * y


class CRS:
    def __init__(self, name):
        self.code = int(name.removeprefix("EPSG:"))
        self.is_geographic, self.is_projected = self.code == 4326, self.code // 200 in (163, 129) or self.code == 2263
        if not self.is_geographic and not self.is_projected:
            raise KeyError(name)
        self.axis_info = [It(unit_conversion_factor=0.3048006 if self.code == 2263 else 1)] * 2

    from_user_input = classmethod(lambda this, name: this(name))


class Transformer:
    def __init__(self, to):
        self.to = to

    @classmethod
    def from_crs(this, crs, to, always_xy):
        assert crs.is_geographic and not to.is_geographic and always_xy
        return this(to.code)

    def transform(self, lons, lats):
        places = [projected(self.to % 100, 32700 < self.to, *place) for place in zip(lons, lats)]
        return tuple(zip(*places))
'''


class Case(NamedTuple):
    """What the tool is given, and what it has to answer: a fleet, ids with interpolations and points, or None where it is to end with 1."""
    name: str
    files: dict
    words: str
    fleet: Any
    tells: list
    is_without: bool = False


def points(*rows):
    """Points by seconds after eight, x and y."""
    return tuple((EIGHT + int(1000 * second), x, y) for second, x, y in rows)


def linear(*rows):
    return "Linear", points(*rows)


def csv(head, *rows):
    return "\n".join((head, *rows, ""))


def feature(name, geometry, **more):
    return {"type": "Feature", "id": name, **more, "temporalGeometry": {"type": "MovingPoint", **geometry}}


def many(vehicles, count):
    """CSV of so many vehicles, of so many points each, second by second."""
    rows = ["v%d,%d,%d,0" % (v, EIGHT // 1000 + second, second) for v in range(vehicles) for second in range(count)]
    return csv("id,time,x,y", *rows)


def many_fleet(vehicles, count, step=1):
    return {"v%d" % v: linear(*((step * i, 1000 * step * i, 0) for i in range(count))) for v in range(vehicles)}


LEFT_IN_GPX = ["elements wpt of a gpx, left out: 1", "elements ele of a trkpt, left out: 1"]
BERLIN = linear((0, 391779259, 5820072159))
DAY = csv("vehicle,timestamp,lat,lon", "a,2024-05-01T08:00:00Z,52.52,13.405")
ROUNDED = "positions rounded to whole millimetres: %d, by at most %s mm"
GPX = """<?xml version="1.0"?>
<gpx version="1.1" xmlns="http://www.topografix.com/GPX/1/1"><wpt lat="1" lon="2"/>
<trk><name>tram-4</name><trkseg>
<trkpt lat="52.52" lon="13.405"><time>2024-05-01T08:00:00Z</time></trkpt>
<trkpt lat="52.53" lon="13.405"><ele>33</ele></trkpt>
</trkseg><trkseg>
<trkpt lat="52.52" lon="13.405"><time>2024-05-01T10:10:00+02:00</time></trkpt>
</trkseg></trk></gpx>
"""
LINE = {"type": "Feature", "id": "l", "properties": {"coordTimes": ["2024-05-01T08:00:00Z", "2024-05-01T08:00:01Z"], "colour": "red"},
        "geometry": {"type": "LineString", "coordinates": [[13.405, 52.52, 30], [13.405, 52.52, 31]]}}
POINTS = [{"type": "Feature", "id": i, "properties": {"vehicle": "p", "time": "2024-05-01T08:00:0%dZ" % i},
           "geometry": {"type": "Point", "coordinates": [13.405, 52.52]}} for i in range(2)]
MOVING = feature("m", {"datetimes": ["2024-05-01T10:00:00.0004+02:00", "2024-05-01T08:00:01Z"],
                       "coordinates": [[391779.2594, 5820072.159, 1], [-0.0001, 1e3, 2]], "interpolation": "Stepwise", "lower_inc": False,
                       "crs": {"type": "Name", "properties": {"name": "urn:ogc:def:crs:EPSG::25833"}}}, properties={"colour": "red"})
SEQUENCES = {"type": "MovingPoint", "crs": {"type": "Name", "properties": {"name": "EPSG:4326"}}, "interpolation": "Quadratic",
             "sequences": [{"datetimes": [EIGHT + 1000 * i], "coordinates": [[13.405, 52.52]], "lower_inc": True} for i in range(2)]}

READABLE = (
    Case("csv of x and y", {"day.csv": csv("id,time,x,y,speed", "a,2024-05-01 08:00:01,1.0005,-2,9", "b,2024-05-01T08:00:00Z,0,0,9",
                                          "a,2024-05-01T08:00:00Z,1e1,0.0004,")}, "",
         {"a": linear((0, 10000, 0), (1, 1000, -2000)), "b": linear((0, 0, 0))},
         ['columns left out: 1 ("speed")', "times without an offset, taken as UTC: 1", ROUNDED % (2, "0.5"),
          "points earlier than the one before, sorted: 1 (day.csv:4)"]),
    Case("csv with decimal commas", {"day.csv": csv("id;time;x;y", "a;1714550400,5;1,25;2")}, "--interpolation Step",
         {"a": ("Step", points((0.5, 1250, 2000)))},
         ["numbers with a comma, taken as a decimal point: 2 (1714550400,5; 1,25)", SECONDS % 1]),
    Case("csv with a byte order mark, other names and an offset",
         {"day.csv": "\ufeff" + csv("who\twhen\tright\tup", '"a"\t20240501T100000\t1\t2')},
         "--columns id=who,time=when,x=right,y=up --offset +02:00 --from mm", {"a": linear((0, 1, 2))},
         ["times without an offset, taken as +02:00: 1"]),
    Case("csv without ids", {"bus.csv": csv("time,x,y", "1714550400123,1,2")}, "", {"bus": linear((0.123, 1000, 2000))},
         ["times that are numbers, taken as milliseconds since 1970: 1"]),
    Case("lon and lat", {"day.csv": DAY}, "", {"a": BERLIN}, [ROUNDED % (1, "0.253")]),
    Case("lon and lat, one of them far away", {"day.csv": csv("id,time,lat,lon", *("a,%d,52.52,%s" % (EIGHT // 1000 + second, lon)
                                                                                 for second, lon in enumerate((13.405, 13.405, 30))))},
         "", {"a": linear((0, 391779259, 5820072159), (1, 391779259, 5820072159), (2, 1514651669, 5925337257))},
         [SECONDS % 3, "positions outside of the UTM zone 33, where distances become too long: 1 (day.csv:4)", ROUNDED % (3, "0.253")]),
    Case("lon and lat of another zone", {"day.csv": DAY}, "--to EPSG:32632", {"a": linear((0, 798812803, 5827999900))},
         ["positions outside of the UTM zone 32, where distances become too long: 1 (day.csv:2)", ROUNDED % (1, "0.429")]),
    Case("south of the equator, past the last meridian",
         {"day.csv": csv("id,time,lat,lon", "a,1714550400,-17,179.9", "a,1714550400,-17,-179.9")}, "--to EPSG:32760",
         {"a": linear((0, 808795443, 8118158746))},
         [SECONDS % 2, "positions outside of the UTM zone 60, where distances become too long: 1 (day.csv:3)", ROUNDED % (2, "0.457"),
          "points elsewhere at a time that was given, left out: 1 (day.csv:3)"]),
    Case("a position that the plane hasn't",
         {"day.csv": csv("id,time,x,y", "a,1714550400,1,2", "a,1714550401,10000000.001,2", "b,1714550402,2e7,0")}, "",
         {"a": linear((0, 1000, 2000))},
         [SECONDS % 3, "positions further than 10,000 km from the plane's origin, left out: 2 (day.csv:3; day.csv:4)",
          "vehicles without a point, left out: 1 (b)"]),
    Case("gpx", {"tram.gpx": GPX}, "", {"tram-4": linear((0, 391779259, 5820072159), (600, 391779259, 5820072159))},
         [*LEFT_IN_GPX, "points without a time, left out: 1 (tram.gpx:5)",
          "gaps between parts of a track, bridged: 1 (tram.gpx:6)", "times with an offset, written in UTC: 1", ROUNDED % (2, "0.253")]),
    Case("gpx and csv of one vehicle", {"bus-1.gpx": GPX, "bus-1.csv": DAY}, "--file-ids --utm --skip",
         {"bus-1": linear((0, 391779259, 5820072159), (600, 391779259, 5820072159))},
         [*LEFT_IN_GPX, "points without a time, left out: 1 (bus-1.gpx:5)",
          "gaps between parts of a track, bridged: 1 (bus-1.gpx:6)", "times with an offset, written in UTC: 1", ROUNDED % (3, "0.253"),
          "tracks joined to an earlier one of their id: 1 (bus-1)", "points earlier than the one before, sorted: 1 (bus-1.csv:2)",
          "points given again, left out: 1 (bus-1.csv:2)"]),
    Case("geojson", {"day.geojson": json.dumps({"type": "FeatureCollection", "features": [LINE, *POINTS]})}, "",
         {name: linear((0, 391779259, 5820072159), (1, 391779259, 5820072159)) for name in "lp"},
         ['properties "colour" of features, left out: 1', "positions of more than two numbers, of which the first two are kept: 2",
          ROUNDED % (4, "0.253")]),
    Case("geojson without times", {"day.json": json.dumps([{**LINE, "properties": None}, POINTS[0]])}, "", {"p": BERLIN},
         ["features without times that go with their positions, left out: 1 (day.json, feature 0)", ROUNDED % (1, "0.253")]),
    Case("mf-json with decimals, crs and offsets", {"m.json": json.dumps(MOVING)}, "",
         {"m": ("Step", points((0, 391779259, 5820072159), (1, 0, 1000000)))},
         ['members "properties" of features, left out: 1', 'members "lower_inc" of geometries, left out: 1',
          "positions of more than two numbers, of which the first two are kept: 2", "times with an offset, written in UTC: 1",
          "times rounded to whole milliseconds: 1, by at most 0.4 ms", ROUNDED % (2, "0.4")], True),
    Case("mf-json of sequences", {"m.json": json.dumps(SEQUENCES)}, "",
         {"m": linear((0, 391779259, 5820072159), (1, 391779259, 5820072159))},
         ["times that are numbers, taken as milliseconds since 1970: 2", "gaps between parts of a track, bridged: 1 (m.json)",
          'interpolations that aren\'t of the profile, which become Linear: 1 (m.json: "Quadratic")', ROUNDED % (2, "0.253")]),
    Case("ids", {"day.csv": csv("id,time,x,y", *("%s,1714550400,%d,0" % (name, i) for i, name in enumerate(
        ("Zug 1", "Zug_1", "Z\u00fcg-1", "\u7535\u8f66", "x" * 70, "x" * 64))))}, "",
         {"Zug_1-2": linear((0, 0, 0)), "Zug_1": linear((0, 1000, 0)), "Zug-1": linear((0, 2000, 0)), "__": linear((0, 3000, 0)),
          "x" * 62 + "-2": linear((0, 4000, 0)), "x" * 64: linear((0, 5000, 0))},
         [SECONDS % 6, 'ids that the profile doesn\'t allow, changed: 4 ("Zug 1" becomes Zug_1-2; "Z\u00fcg-1" becomes Zug-1; '
          '"\u7535\u8f66" becomes __; "%s" becomes %s-2)' % ("x" * 70, "x" * 62)]),
    Case("a broken row that is skipped", {"day.csv": csv("id,time,x,y", "a,1714550400,1,2", "a,,1,2", "a,1714550401,1")}, "--skip",
         {"a": linear((0, 1000, 2000))},
         [SECONDS % 1, "rows, points or features that can't be read, left out: 2 (day.csv:3: no time: it is empty; "
          "day.csv:4: 3 fields, and the first line has 4)"]),
    Case("600 points", {"day.csv": many(2, 600)}, "--nodes 7 --client 255", many_fleet(2, 600), [SECONDS % 1200]),
    Case("3,000 points", {"day.csv": many(1, 3000)}, "", many_fleet(1, 1024),
         [SECONDS % 3000, "points past a vehicle's first 1024, left out (--every SECONDS keeps fewer of each minute): 1976 (v0 from "
          "2024-05-01T08:17:04.000Z on)"]),
    Case("3,000 points, thinned", {"day.csv": many(1, 3000)}, "--every 3", many_fleet(1, 1000, 3),
         [SECONDS % 3000, "points too near in time to the one before, left out as --every says: 2000"]),
    Case("300 vehicles", {"day.csv": many(300, 1)}, "--nodes 5", many_fleet(256, 1),
         [SECONDS % 300, "vehicles past the first 256, left out: 44 (v256; v257; v258; ..)"]),
    Case("more than the log", {"day.csv": many(130, 1024)}, "", {name: ("Linear", rows[:1015 + (int(name[1:]) < 16)])
                                                            for name, (_, rows) in many_fleet(130, 1024).items()},
         [SECONDS % 133120, "points past the log's 65536 commands, left out: 1154 (all after a vehicle's first 512 from "
          "2024-05-01T08:16:55.000Z on)"]),
)

UNUSABLE = (
    Case("an empty file", {"day.csv": " \n"}, "", None, ["day.csv: the file is empty"]),
    Case("a byte order mark alone", {"day.csv": "\ufeff"}, "", None, ["day.csv: the file is empty"]),
    Case("names alone", {"day.csv": "id,time,x,y\n"}, "", None, ["day.csv: no point with a time is in it"]),
    Case("a row too short", {"day.csv": csv("id,time,x,y", "a,1714550400,1,2", "a,1714550401,1")}, "", None,
         ["day.csv:3: 3 fields, and the first line has 4"]),
    Case("no number", {"day.csv": csv("id,time,x,y", "a,1714550400,1,north")}, "", None, ["day.csv:2: no number: north"]),
    Case("an open quote", {"day.csv": csv("id,time,x,y", '"a,1714550400,1,2')}, "", None,
         ["day.csv:2: no row of CSV: unexpected end of data"]),
    Case("a thirtieth of February", {"day.csv": csv("id,time,x,y", "a,2024-02-30T00:00:00Z,1,2")}, "", None,
         ["day.csv:2: day is out of range for month"]),
    Case("before 1970", {"day.csv": csv("id,time,x,y", "a,1969-12-31T23:59:59Z,1,2")}, "", None,
         ["day.csv:2: a time before 1970 or after 9999: 1969-12-31T23:59:59Z"]),
    Case("no longitude", {"day.csv": csv("id,time,lon,lat", "a,1714550400,391779,5820072")}, "", None,
         ["day.csv:2: no longitude and latitude: 391779 5820072"]),
    Case("no latitude", {"day.csv": csv("id,time,lon,lat", "a,1714550400,13,90.1")}, "", None,
         ["day.csv:2: no longitude and latitude: 13 90.1"]),
    Case("no column of times", {"day.csv": csv("id,x,y", "a,1,2")}, "", None,
         ["day.csv:1: no column of times (time, timestamp, datetime, date_time, utc, fixtime, gps_time, t, date): name it with --columns "
          "time=NAME"]),
    Case("lon and lat without pyproj", {"day.csv": DAY}, "", None,
         ["longitudes and latitudes: projecting them wants pyproj: apt install python3-pyproj"], True),
    Case("metres of nowhere", {"day.csv": csv("id,time,x,y", "a,1714550400,1,2")}, "--to EPSG:32633", None,
         ["day.csv:2: x and y of an unknown crs can't be brought to EPSG:32633: name theirs with --from EPSG:N"]),
    Case("a plane in feet", {"day.csv": DAY}, "--to EPSG:2263", None, ["EPSG:2263: no plane in metres"]),
    Case("no crs of pyproj", {"day.csv": DAY}, "--to EPSG:99999", None, ["EPSG:99999: no crs that pyproj knows"]),
    Case("half of a gpx", {"tram.gpx": GPX[:200]}, "", None, ["tram.gpx:4: no XML: unclosed token"]),
    Case("xml of another kind", {"map.kml": "<kml/>"}, "", None, ["map.kml:1: no GPX: its element is kml"]),
    Case("half of a json", {"m.json": '{"type":\n"Feature"'}, "", None, ["m.json:2: no JSON: Expecting ',' delimiter"]),
    Case("lists of two lengths", {"m.json": json.dumps(feature("a", {"datetimes": [], "coordinates": [[1, 2]]}))}, "", None,
         ["m.json: temporalGeometry: 0 datetimes, 1 coordinates"]),
    Case("an unknown crs", {"m.json": json.dumps({**MOVING, "crs": {"type": "Name", "properties": {"name": "here"}}})}, "", None,
         ['m.json: a crs that isn\'t known: {"type": "Name", "properties": {"name": "here"}}']),
    Case("a folder that isn't empty", {"day.csv": many(1, 1), "out/mine.txt": ""}, "", None, ["out: the folder isn't empty"]),
)


# Words that are none of the tool's; it ends with 2.
USAGE = ("", "day.csv --to m", "day.csv --to EPSG:32633 --utm", "day.csv --from here", "day.csv --client 256", "day.csv --every x",
         "day.csv --columns what=name", "day.csv --offset 2", "day.csv --nodes 4", "day.csv --forma csv")


@functools.cache
def has_pyproj():
    return importlib.util.find_spec("pyproj") is not None


def run_tool(case, room):
    """Runs the tool over a case's files, and returns its status and what it told."""
    for name, text in case.files.items():
        os.makedirs(os.path.dirname(os.path.join(room, name)), exist_ok=True)
        with open(os.path.join(room, name), "w", encoding="utf-8", newline="") as file:
            file.write(text)
    inputs = [name for name in case.files if "/" not in name]
    kind = "absent" if case.is_without else "here" if has_pyproj() else "stand_in"
    paths = [os.path.join(os.path.dirname(room), kind), *filter(None, [os.environ.get("PYTHONPATH")])]
    words = [sys.executable, TOOL, *inputs, "-o", "out", *case.words.split()]
    done = subprocess.run(words, cwd=room, env={**os.environ, "PYTHONPATH": os.pathsep.join(paths)}, capture_output=True, encoding="utf-8")
    return done.returncode, done.stderr.splitlines()


def fleet_in(folder):
    """The fleet of a schedule, after the references, and what is wrong with its replies and with the documents beside it."""
    with open(os.path.join(folder, "fleet.schedule"), "rb") as file:
        _, events = reference_parser.read(file.read())
    fleet, wrong = {}, []
    for event in (event for event in events if event.kind == "submit"):
        reply, fleet = reference_db.applied(fleet, event.what if event.what[0] != "put" else ("put", *event.what[1:]))
        if reply:
            wrong.append("line %d: reply %d" % (event.line, reply))
    texts = {name + ".json": reference_db.canonical(name, sequence) + "\n" for name, sequence in fleet.items()}
    found = set(os.listdir(folder)) - {"fleet.schedule"}
    wrong += ["another list of documents"] if found != set(texts) else []
    return fleet, wrong + [name for name in sorted(found & set(texts)) if content(os.path.join(folder, name)) != texts[name]]


def content(path):
    with open(path, encoding="utf-8") as file:
        return file.read()


def replay(program, folder, fleet):
    """What is wrong with the program's answers to the schedule."""
    lines = content(os.path.join(folder, "fleet.schedule")).splitlines()
    gets = ["query 0 get %s" % name for name in fleet]
    done = subprocess.run([program, "replay", "-"], input="\n".join(lines + gets), capture_output=True, encoding="ascii")
    submitted = sum(line.startswith("submit ") for line in lines)
    replies = [line for line in done.stdout.splitlines() if line.startswith("reply ")]
    answers = [line.split(" ", 3)[2:] for line in done.stdout.splitlines() if line.startswith("answer ")]
    wanted = ["count %d" % len(fleet)] + ["get " + reference_db.canonical(*it) for it in fleet.items()]
    wrong = ["status %d: %s" % (done.returncode, done.stderr)] if done.returncode else []
    wrong += ["%d replies of 0 to %d requests" % (len(replies), submitted)] if [line[-2:] for line in replies] != [" 0"] * submitted else []
    wrong += ["other answers"] if answers != [[str(submitted), text] for text in wanted] else []
    first = next(iter(fleet)) + ".json"
    checked = subprocess.run([program, "check", os.path.join(folder, first)], capture_output=True, encoding="ascii")
    return wrong + (["check of %s" % first] if checked.stdout != content(os.path.join(folder, first)) else [])


def wrong_with(case, room, program):
    """What is wrong with what the tool makes of a case."""
    status, told = run_tool(case, room)
    if case.fleet is None:
        wrong = ["status %d, for 1" % status] if status != 1 else []
        return wrong + (["told %s" % told] if told != case.tells else [])
    if status != 0:
        return ["status %d: %s" % (status, told)]
    fleet, wrong = fleet_in(os.path.join(room, "out"))
    wrong += ["told %s" % line for line in sorted(set(told[:-1]) ^ set(case.tells))]
    wrong += ["another fleet: %.300s" % fleet] if fleet != case.fleet else []
    return wrong + (replay(program, os.path.join(room, "out"), fleet) if program else [])


def wrong_streams(room):
    """What is wrong where a schedule goes to standard output, an input comes from standard input, or words are wrong."""
    text, run = many(2, 70), functools.partial(subprocess.run, capture_output=True, encoding="ascii", cwd=room)
    whole = run([sys.executable, TOOL, "-"], input=text)
    lines = run([sys.executable, TOOL, "-", "--lines", "--format", "csv", "-o", "-"], input=text)
    wrong = ["status %d, %d" % (whole.returncode, lines.returncode)] if whole.returncode or lines.returncode else []
    kept = [line for line in whole.stdout.splitlines() if line.startswith(("submit ", "flush"))]
    wrong += ["--lines has other lines"] if lines.stdout.splitlines() != kept or not kept else []
    wrong += ["the first line is %s" % line for line in whole.stdout.splitlines()[:1] if line != "nodes 3"]
    ends = [run([sys.executable, TOOL, *words.split()]).returncode for words in USAGE]
    return wrong + ["%s: status %d, for 2" % (words or "no word", end) for words, end in zip(USAGE, ends) if end != 2]


def main():
    parser = argparse.ArgumentParser(description=__doc__, formatter_class=argparse.RawDescriptionHelpFormatter)
    parser.add_argument("program", nargs="?", metavar="PROGRAM")
    program, found = parser.parse_args().program, 0
    with tempfile.TemporaryDirectory() as top:
        for kind, text in (("absent", ABSENT), ("stand_in", STAND_IN)):
            os.mkdir(os.path.join(top, kind))
            with open(os.path.join(top, kind, "pyproj.py"), "w", encoding="ascii") as file:
                file.write(text)
        for number, case in enumerate(READABLE + UNUSABLE):
            room = os.path.join(top, str(number))
            os.mkdir(room)
            wrong = wrong_with(case, room, program and os.path.abspath(program))
            found += bool(wrong)
            print("".join("%s: %s\n" % (case.name, what) for what in wrong), end="")
        wrong = wrong_streams(top)
        found += bool(wrong)
        print("".join("streams and words: %s\n" % what for what in wrong), end="")
    kind = "with pyproj" if has_pyproj() else "with a stand-in for pyproj"
    print("%d inputs, %s%s; %d wrong" % (len(READABLE + UNUSABLE), kind, ", replayed" if program else "", found))
    sys.exit(1 if found else 0)


if __name__ == "__main__":
    main()

#!/usr/bin/env python3
"""Brings a fleet's real tracks in: documents of the profile, and a schedule that puts them, which `mfpx replay` runs at once.

    tools/import_tracks.py INPUT.. -o DIR      writes DIR/fleet.schedule and DIR/ID.json for each vehicle; DIR is absent or empty
    tools/import_tracks.py INPUT.. | mfpx      the schedule alone, to standard output

An INPUT is CSV with a line of names (id, time, lon and lat or x and y), GPX, GeoJSON or MF-JSON; `-` is standard input. Inputs with one id
are one vehicle. Longitudes and latitudes are projected to the UTM zone of the fleet's middle, or to what --to names; that wants pyproj
(Debian's python3-pyproj). Whatever was rounded, changed or left out is told on standard error, a line for each kind; the last line says
what was written. Status 0: done; 1: an input can't be used (file:line: why), and nothing is written, or a file can't be written; 2:
other words.
"""

import argparse
import functools
import json
import math
import os
import re
import statistics
import sys
import unicodedata
from decimal import Decimal
from typing import NamedTuple

import track_readers
from track_readers import LONLAT, METRES, MILLIMETRES, Unusable

COORDINATE = 10**10
MOST_FEATURES, MOST_POINTS, MOST_PUT, MOST_COMMANDS, MOST_WAITING = 256, 1024, 512, 65_536, 64
LONGEST_ID = 64
UTM = "utm"
# Planes in metres that are known without pyproj: UTM on WGS 84 and on ETRS89, and the web's.
KNOWN_PLANES = re.compile(r"EPSG:(?:32[67](?:0[1-9]|[1-5]\d|60)|258(?:2[89]|3[0-8])|3857)")
ZONE = re.compile(r"EPSG:32([67])(0[1-9]|[1-5]\d|60)")


class Vehicle(NamedTuple):
    """A feature of the profile: its points are of an instant in milliseconds and two coordinates in millimetres."""
    name: str
    interpolation: str
    points: list


# The plane.


def pyproj_for(crs):
    """The package, which only those need whose positions are to be projected."""
    try:
        import pyproj
    except ImportError:
        what = "longitudes and latitudes" if crs == LONLAT else "positions of %s" % crs
        raise Unusable(what, "projecting them wants pyproj: apt install python3-pyproj") from None
    return pyproj


@functools.cache
def crs_of(name):
    """What pyproj knows of a crs."""
    pyproj = pyproj_for(name)
    try:
        return pyproj.CRS.from_user_input("EPSG:4326" if name == LONLAT else name)
    except pyproj.exceptions.CRSError:
        raise Unusable(name, "no crs that pyproj knows") from None


@functools.cache
def transformer(crs, to):
    """What brings x and y, or longitude and latitude, from one crs to another."""
    return pyproj_for(crs).Transformer.from_crs(crs_of(crs), crs_of(to), always_xy=True)


def is_unnamed(crs):
    return crs in (METRES, MILLIMETRES)


def is_geographic(crs):
    return crs == LONLAT or not is_plane(crs) and crs_of(crs).is_geographic


def is_plane(crs):
    """Whether coordinates of a crs are in metres, or millimetres, of a plane."""
    if is_unnamed(crs) or KNOWN_PLANES.fullmatch(crs):
        return True
    return crs != LONLAT and crs_of(crs).is_projected and all(axis.unit_conversion_factor == 1 for axis in crs_of(crs).axis_info[:2])


def moved(track, to):
    """The positions of a track in another crs."""
    if track.crs == to or is_unnamed(track.crs) and is_unnamed(to):
        return [(fix.x, fix.y) for fix in track.fixes]
    if is_unnamed(track.crs):
        raise Unusable(track.fixes[0].where, "x and y of an unknown crs can't be brought to %s: name theirs with --from EPSG:N" % to)
    places = transformer(track.crs, to).transform([float(fix.x) for fix in track.fixes], [float(fix.y) for fix in track.fixes])
    return list(zip(*places))


def utm_of(tracks):
    """The UTM zone of the fleet's middle."""
    places = [(float(x), float(y)) for track in tracks for x, y in moved(track, LONLAT)]
    lon, lat = (statistics.median(values) for values in zip(*places))
    return "EPSG:32%d%02d" % (6 if lat >= 0 else 7, int((lon + 180) // 6) % 60 + 1)


def plane_of(tracks, asked):
    """The plane to which all tracks are brought."""
    names = sorted({track.crs for track in tracks})
    if asked and asked != UTM:
        if not is_plane(asked):
            raise Unusable(asked, "no plane in metres")
        return asked
    if asked == UTM or any(is_geographic(name) for name in names):
        return utm_of(tracks)
    if all(is_unnamed(name) for name in names):
        return METRES
    if len(names) > 1 or not is_plane(names[0]):
        raise Unusable(", ".join(names), "not one plane in metres: name one with --to EPSG:N, or --utm")
    return names[0]


def points_of(track, plane, losses):
    """The points of a track in whole milliseconds and millimetres, each with where it stands."""
    scale, found = 1 if track.crs == MILLIMETRES else 1000, []
    for fix, place in zip(track.fixes, moved(track, plane)):
        exact = [scale * Decimal(value) for value in place]
        if not all(math.isfinite(value) for value in exact):
            losses.tell("positions that the plane %s hasn't, left out" % plane, fix.where)
        elif any(abs(value) > COORDINATE for value in exact):
            losses.tell("positions further than 10,000 km from the plane's origin, left out", fix.where)
        else:
            x, y = (int(value.to_integral_value()) for value in exact)
            losses.measure("positions rounded to whole millimetres", max(abs(exact[0] - x), abs(exact[1] - y)), "mm")
            found.append((fix.time, x, y, fix.where))
    return found


def tell_far(tracks, plane, losses):
    """Tells of positions that aren't in the plane's zone."""
    zone = ZONE.fullmatch(plane)
    for track in tracks if zone else []:
        far = [fix for fix in track.fixes if track.crs == LONLAT and abs(fix.x - (6 * int(zone[2]) - 183)) > 3]
        if far:
            losses.tell("positions outside of the UTM zone %s, where distances become too long" % zone[2], far[0].where, len(far))


# The fleet.


def joined(tracks, plane, losses):
    """The tracks of one id as one, in the order in which ids come: an interpolation and points."""
    found = {}
    for track in tracks:
        points = points_of(track, plane, losses)
        if track.name not in found:
            found[track.name] = (track.interpolation, points)
            continue
        losses.tell("tracks joined to an earlier one of their id", track.name)
        if found[track.name][0] != track.interpolation:
            losses.tell("interpolations that aren't that of the id's first track, left out", "%s: %s" % (track.name, track.interpolation))
        found[track.name][1].extend(points)
    return found


def ascending(points, losses):
    """The points by their times, the first of each time alone."""
    for before, after in zip(points, points[1:]):
        if after[0] < before[0]:
            losses.tell("points earlier than the one before, sorted", after[3])
    kept = []
    for point in sorted(points, key=lambda point: point[0]):
        if not kept or kept[-1][0] < point[0]:
            kept.append(point)
        elif kept[-1][1:3] == point[1:3]:
            losses.tell("points given again, left out", point[3])
        else:
            losses.tell("points elsewhere at a time that was given, left out", point[3])
    return kept


def thinned(points, every, losses):
    """The points at least so many milliseconds apart."""
    kept = []
    for point in points:
        if not kept or point[0] >= kept[-1][0] + every:
            kept.append(point)
    if len(kept) < len(points):
        losses.tell("points too near in time to the one before, left out as --every says", count=len(points) - len(kept))
    return kept


def shortened(name, points, losses):
    """The first points, as many as a feature has."""
    if len(points) > MOST_POINTS:
        losses.tell("points past a vehicle's first %d, left out (--every SECONDS keeps fewer of each minute)" % MOST_POINTS,
                    "%s from %s on" % (name, stamp(points[MOST_POINTS][0])), len(points) - MOST_POINTS)
    return points[:MOST_POINTS]


def valid_id(name):
    """An id of the profile that looks like this one."""
    plain = "".join(letter for letter in unicodedata.normalize("NFKD", name) if not unicodedata.combining(letter))
    return re.sub("[^A-Za-z0-9._-]", "_", plain)[:LONGEST_ID] or "vehicle"


def numbered(name, taken):
    """The id, with a number where it is taken."""
    number, free = 1, name
    while free in taken:
        number += 1
        free = "%s-%d" % (name[:LONGEST_ID - 1 - len(str(number))], number)
    return free


def ids_of(names, losses):
    """The ids of the profile for ids as they were given: those that are ids keep theirs."""
    ids = {name: name for name in names if valid_id(name) == name}
    for name in names:
        if name not in ids:
            ids[name] = numbered(valid_id(name), set(ids.values()))
    changed = ["%s becomes %s" % (json.dumps(name, ensure_ascii=False), ids[name]) for name in names if ids[name] != name]
    if changed:
        losses.tell("ids that the profile doesn't allow, changed", "; ".join(changed), len(changed))
    return {name: ids[name] for name in names}


def fleet_of(tracks, asked, losses):
    """The vehicles, and the plane they are in."""
    tracks, empty = [track for track in tracks if track.fixes], [track.name for track in tracks if not track.fixes]
    if not tracks:
        raise Unusable(", ".join(asked.inputs), "; ".join(["no point with a time is in it", *losses.lines()]))
    plane = plane_of(tracks, asked.to)
    tell_far(tracks, plane, losses)
    found = joined(tracks, plane, losses)
    pointless = [name for name, (_, points) in found.items() if not points] + [name for name in empty if name not in found]
    for name in pointless:
        losses.tell("vehicles without a point, left out", name)
    names = [name for name in found if found[name][1]]
    for name in names[MOST_FEATURES:]:
        losses.tell("vehicles past the first %d, left out" % MOST_FEATURES, name)
    ids, vehicles = ids_of(names[:MOST_FEATURES], losses), []
    for name, given in ids.items():
        points = thinned(ascending(found[name][1], losses), asked.every, losses)
        vehicles.append(Vehicle(given, found[name][0], [point[:3] for point in shortened(given, points, losses)]))
    if not vehicles:
        raise Unusable(", ".join(asked.inputs), "; ".join(["no position is in the plane %s" % plane, *losses.lines()]))
    return vehicles, plane


def later_points(vehicles):
    """What can't be in a put, in the order of time: pairs of a point and its vehicle's place."""
    return sorted((point, place) for place, vehicle in enumerate(vehicles) for point in vehicle.points[MOST_PUT:])


def fitting(vehicles, losses):
    """The vehicles with what one log holds of them."""
    later, room = later_points(vehicles), MOST_COMMANDS - len(vehicles)
    if len(later) <= room:
        return vehicles
    losses.tell("points past the log's %d commands, left out" % MOST_COMMANDS, "all after a vehicle's first %d from %s on"
                % (MOST_PUT, stamp(later[room][0][0])), len(later) - room)
    kept = [MOST_PUT] * len(vehicles)
    for _, place in later[:room]:
        kept[place] += 1
    return [vehicle._replace(points=vehicle.points[:count]) for vehicle, count in zip(vehicles, kept)]


# What is written.


def stamp(t):
    """The datetime of an instant."""
    return track_readers.datetime_text(t)


def document(vehicle, most=MOST_POINTS):
    """The canonical document of a vehicle's first points."""
    points = vehicle.points[:most]
    geometry = {"coordinates": [[x, y] for _, x, y in points], "datetimes": [stamp(t) for t, _, _ in points],
                "interpolation": vehicle.interpolation, "type": "MovingPoint"}
    return json.dumps({"id": vehicle.name, "temporalGeometry": geometry, "type": "Feature"}, separators=(",", ":"))


def operations(vehicles):
    """The words of each request: a put of each vehicle, then what the puts leave, in the order of time."""
    yield from ("put " + document(vehicle, MOST_PUT) for vehicle in vehicles)
    for (t, x, y), place in later_points(vehicles):
        yield "append %s %s %d %d" % (vehicles[place].name, stamp(t), x, y)


def schedule(vehicles, asked):
    """The lines of the schedule: node 0 gets as many requests as may wait before each flush, and leads with the first of these, as a
    leader for whom nothing waits would use a slot of the log for a no-op."""
    requests = ["submit 0 %d %d %s" % (asked.client, number, words) for number, words in enumerate(operations(vehicles), 1)]
    batches = [requests[at:at + MOST_WAITING] + ["flush"] for at in range(0, len(requests), MOST_WAITING)]
    if not asked.lines:
        batches[0] = ["nodes %d" % asked.nodes, *batches[0][:-1], "timeout 0", "flush"]
        batches.append(["query 0 count"])
    return [line for batch in batches for line in batch]


def write(folder, vehicles, lines):
    """Writes the schedule and the documents into a new or an empty folder."""
    os.makedirs(folder, exist_ok=True)
    if os.listdir(folder):
        raise Unusable(folder, "the folder isn't empty")
    texts = {vehicle.name + ".json": document(vehicle) for vehicle in vehicles}
    for name, text in {**texts, "fleet.schedule": "\n".join(lines)}.items():
        with open(os.path.join(folder, name), "w", encoding="ascii", newline="\n") as file:
            file.write(text + "\n")


def summary(vehicles, plane, target):
    """What was written, in a line."""
    points = [point for vehicle in vehicles for point in vehicle.points]
    (begin, *_), (end, *_) = min(points), max(points)
    named = "as given" if is_unnamed(plane) else plane
    (x0, x1), (y0, y1) = ((min(values), max(values)) for values in list(zip(*points))[1:])
    return "%s: %d vehicles, %d points, %s to %s; x %d to %d mm, y %d to %d mm (%s)" % (
        target, len(vehicles), len(points), stamp(begin), stamp(end), x0, x1, y0, y1, named)


# The command.


def crs_word(word):
    """A crs as --from and --to name it."""
    named = word if word in (LONLAT, METRES, MILLIMETRES) else track_readers.crs_named(word)
    if named is None:
        raise argparse.ArgumentTypeError("EPSG:N is wanted")
    return named


def columns_word(word):
    """Columns as --columns names them."""
    pairs = [part.partition("=")[::2] for part in word.split(",")]
    if not all(what in track_readers.NAMES and name for what, name in pairs):
        raise argparse.ArgumentTypeError("WHAT=NAME,.. is wanted, WHAT being one of %s" % ", ".join(track_readers.NAMES))
    return dict(pairs)


def offset_word(word):
    try:
        return track_readers.offset_minutes(word)
    except ValueError as why:
        raise argparse.ArgumentTypeError(str(why)) from None


def seconds_word(word):
    """Seconds as --every names them, in milliseconds."""
    if not re.fullmatch(r"\d{1,9}(\.\d{1,3})?", word, re.ASCII):
        raise argparse.ArgumentTypeError("seconds are wanted")
    return int(1000 * Decimal(word))


def client_word(word):
    if not re.fullmatch(r"\d{1,3}", word, re.ASCII) or int(word) > 255:
        raise argparse.ArgumentTypeError("a client is wanted: 0 to 255")
    return int(word)


def arguments(words):
    parser = argparse.ArgumentParser(description=__doc__, formatter_class=argparse.RawDescriptionHelpFormatter, allow_abbrev=False)
    parser.add_argument("inputs", nargs="+", metavar="INPUT")
    parser.add_argument("-o", dest="out", default="-", metavar="DIR", help="where to write; - (as without it) is standard output")
    parser.add_argument("--format", choices=("csv", "gpx", "geojson", "mfjson"), help="of all inputs; else their first character tells")
    parser.add_argument("--columns", type=columns_word, default={}, metavar="WHAT=NAME,..", help="names of columns: time=ts,lon=px,lat=py")
    parser.add_argument("--from", dest="crs", type=crs_word, metavar="CRS",
                        help="of x and y where the input doesn't say it: m (metres, as without it in CSV), mm, lonlat or EPSG:N")
    plane = parser.add_mutually_exclusive_group()
    plane.add_argument("--to", type=crs_word, metavar="EPSG:N", help="the plane to project to, in metres")
    plane.add_argument("--utm", dest="to", action="store_const", const=UTM, help="the UTM zone of the fleet's middle")
    parser.add_argument("--offset", type=offset_word, default=0, metavar="+HH:MM", help="of times that have none; without it UTC")
    parser.add_argument("--interpolation", choices=("Linear", "Step", "Discrete"), default="Linear", help="of tracks that don't say it")
    parser.add_argument("--every", type=seconds_word, default=0, metavar="SECONDS", help="leave out points nearer in time than that")
    parser.add_argument("--file-ids", action="store_true", help="each file is one vehicle, with the file's name")
    parser.add_argument("--skip", action="store_true", help="leave out, and tell, rows and points that can't be read")
    parser.add_argument("--nodes", type=int, choices=(3, 5, 7), default=3)
    parser.add_argument("--client", type=client_word, default=1, metavar="N", help="who submits, 0 to 255; the numbers begin with 1")
    parser.add_argument("--lines", action="store_true", help="only `submit` and `flush` lines, for a schedule in which node 0 leads")
    asked = parser.parse_args(words)
    if asked.to in (LONLAT, METRES, MILLIMETRES):
        parser.error("argument --to: EPSG:N of a plane is wanted")
    return asked


def tracks_of(asked, losses):
    """The tracks of all inputs."""
    how = track_readers.Asked(asked.crs, asked.interpolation, asked.offset, asked.columns, asked.skip)
    reader, found = track_readers.Reader(how, losses), []
    for path in asked.inputs:
        if path == "-":
            data = sys.stdin.buffer.read()
        else:
            with open(path, "rb") as file:
                data = file.read()
        tracks = reader.read(path, data, asked.format)
        found += [track._replace(name=track_readers.stem(path)) for track in tracks] if asked.file_ids else tracks
    return found


def say(line):
    """Prints a line on standard error, with blanks for what an input has of line feeds and other controls."""
    print("".join(letter if letter.isprintable() else " " for letter in line), file=sys.stderr)


def main(words):
    asked, losses = arguments(words), track_readers.Losses()
    try:
        vehicles, plane = fleet_of(tracks_of(asked, losses), asked, losses)
        vehicles = fitting(vehicles, losses)
        lines = schedule(vehicles, asked)
        if asked.out == "-":
            print("\n".join(lines), flush=True)
        else:
            write(asked.out, vehicles, lines)
    except Unusable as unusable:
        say("%s: %s" % (unusable.where, unusable.why))
        return 1
    except OSError as why:
        say("%s: %s" % (why.filename or "standard output", why.strerror))
        return 1
    target = "standard output" if asked.out == "-" else os.path.join(asked.out, "fleet.schedule")
    for line in [*losses.lines(), summary(vehicles, plane, target)]:
        say(line)
    return 0


if __name__ == "__main__":
    sys.exit(main(sys.argv[1:]))

#!/usr/bin/env python3
"""Compares `mfpx` with programs that others wrote for a part of its work, in one sitting.

    bench/peers/peers.py PROGRAM [documents] [log] [values] [puts]     all four where none is named

README.md beside it has the packages. Times are of the processor, best of five in turn, less what a run of nothing takes; those of
the spatial database and of puts to a disk are by the clock. A quotient above 1 means that `mfpx` does more in the same time.
"""
import json
import os
import random
import sqlite3
import subprocess
import sys
import tempfile
import time

HERE = os.path.dirname(os.path.abspath(__file__))
TRIES = 5
POSTGRES = "/usr/lib/postgresql/15/bin"


def main(program, *wanted):
    with tempfile.TemporaryDirectory() as room:
        os.chmod(room, 0o755)
        for name, compare in (("documents", documents), ("log", log), ("values", values), ("puts", puts)):
            if not wanted or name in wanted:
                compare(os.path.abspath(program), room)


def documents(program, room):
    """Documents of 1,024 instants. The node refuses to put so long a sequence, once its document was read."""
    text = document("bus-7", 1024)
    count = 1000
    schedule = written(room, "documents.schedule", "nodes 3\n" + ("submit 0 7 1 put %s\n" % text) * count)
    one = written(room, "document.json", text)
    many = written(room, "documents.json", (text + "\n") * count)
    peer = built(room, "documents", "documents.cpp", "-lsimdjson")
    megabytes = len(text) * count / 1e6
    ways = {
        "mfpx": ([program, "replay", schedule], megabytes),
        "simdjson, fallback": ([peer, "fallback", one, str(10 * count)], 10 * megabytes),
        "simdjson, best": ([peer, "best", one, str(10 * count)], 10 * megabytes),
        "jq": (["jq", "-c", "empty", many], megabytes),
    }
    told("documents read, MB a second", rates(ways, {"mfpx": [program, "replay", written(room, "none.schedule", "nodes 3\n")]}))


def log(program, room):
    """Entries of a log that one leader proposes one at a time, all servers in one process."""
    count = 20_000
    peer = built(room, "log", "log.c", "-lraft")
    for servers in (3, 5):
        start = "nodes %d\nsubmit 0 7 1 put %s\ntimeout 0\nflush\n" % (servers, document("bus-7", 2))
        lines = "".join("submit 0 7 %d append bus-7 %s 1 1\nflush\n" % (i + 2, datetime(i + 2)) for i in range(count))
        ways = {
            "mfpx": ([program, "replay", written(room, "log.schedule", start + lines)], count),
            "libraft's fixture": ([peer, str(servers), str(count)], count),
        }
        empty = {"mfpx": [program, "replay", written(room, "start.schedule", start)], "libraft's fixture": [peer, str(servers), "0"]}
        told("entries a second on %d servers" % servers, rates(ways, empty))


def values(program, room):
    """Values at an instant of one of 256 features of 512 points, and whether one is ever in a small rectangle.

    The program is asked ten times as often, as it reads the features each time it runs, which takes as long as 100,000 values.
    """
    count, times = 20_000, 10
    draw = random.Random(1)
    ways = [[(draw.randrange(10_000), draw.randrange(10_000)) for _ in range(512)] for _ in range(256)]
    puts = ["submit 0 7 %d put %s" % (i + 1, spelled("bus-%d" % i, way)) for i, way in enumerate(ways)]
    start = "nodes 3\ntimeout 0\nflush\n" + "\nflush\n".join(puts) + "\nflush\n"
    asked = {
        "value at an instant": "".join("query 0 at bus-%d %s.500Z\n" % (i % 256, datetime(i % 500)[:-1]) for i in range(times * count)),
        "ever in a rectangle": "".join("query 0 ever bus-%d %s %s 5000 5000 5010 5010\n" % (i % 256, datetime(0), datetime(511)) for i in range(times * count)),
    }
    inside = {
        "value at an instant": "SELECT count(ST_X(ST_GeometryN(ST_LocateAlong(way, i % 500 + 0.5), 1)))",
        "ever in a rectangle": "SELECT count(nullif(ST_Intersects(way, ST_MakeEnvelope(5000, 5000, 5010, 5010)), false))",
    }
    empty = best([program, "replay", written(room, "fleet.schedule", start)])
    with Server(room) as server:
        rows = ["(%d, 'LINESTRING M(%s)')" % (i, ",".join("%d %d %d" % (x, y, t) for t, (x, y) in enumerate(way))) for i, way in enumerate(ways)]
        server.run("CREATE EXTENSION postgis; CREATE TABLE fleet (id int PRIMARY KEY, way geometry(LineStringM));")
        server.run("INSERT INTO fleet VALUES %s; ANALYZE fleet;" % ",".join(rows))
        for work, lines in asked.items():
            schedule = written(room, "asked.schedule", start + lines)
            question = "%s FROM generate_series(1, %d) AS i JOIN fleet ON id = i %% 256" % (inside[work], count)
            told(work + ", a second", {"mfpx": times * count / (best([program, "replay", schedule]) - empty), "PostGIS": count / server.seconds(question)})


def puts(program, room):
    """Records that are on the disk before the next one: three nodes, and three databases by turns."""
    count = 300
    folder = tempfile.mkdtemp(dir=os.getcwd())
    start = "nodes 3\nsubmit 0 7 1 put %s\ntimeout 0\nflush\n" % document("bus-7", 2)
    lines = "".join("submit 0 7 %d append bus-7 %s 1 1\nflush\n" % (i + 2, datetime(i + 2)) for i in range(count))
    schedule = written(room, "puts.schedule", start + lines)
    try:
        ours = min(by_clock(lambda: replayed(program, schedule, folder)) for _ in range(TRIES))
        theirs = min(by_clock(lambda: upserted(folder, 3 * count)) for _ in range(TRIES))
    finally:
        subprocess.run(["rm", "-r", folder], check=True)
    told("puts on the disk, a second", {"mfpx": 3 * count / ours, "SQLite": 3 * count / theirs})


def replayed(program, schedule, folder):
    empty_folder(folder)
    subprocess.run([program, "replay", schedule, "--db", folder], check=True, stdout=subprocess.DEVNULL)


def upserted(folder, count):
    empty_folder(folder)
    tables = [sqlite3.connect(os.path.join(folder, "peer%d.db" % i), isolation_level=None) for i in range(3)]
    for table in tables:
        table.execute("PRAGMA journal_mode=WAL")
        table.execute("PRAGMA synchronous=FULL")
        table.execute("CREATE TABLE record (k BLOB PRIMARY KEY, v BLOB NOT NULL)")
    for i in range(count):
        values = (b"\x01" + (i // 3).to_bytes(4, "big"), bytes(56))
        tables[i % 3].execute("INSERT INTO record VALUES (?, ?) ON CONFLICT (k) DO UPDATE SET v = excluded.v", values)


def empty_folder(folder):
    for name in os.listdir(folder):
        os.remove(os.path.join(folder, name))


class Server:
    """A PostgreSQL server of our own, over a socket in a folder, asked by `psql`."""

    def __init__(self, room):
        self.room = os.path.join(room, "server")

    def __enter__(self):
        os.mkdir(self.room)
        subprocess.run(["chown", "postgres", self.room], check=True)
        self.owner("%s/initdb -D %s/data -A trust" % (POSTGRES, self.room))
        self.owner("%s/pg_ctl -D %s/data -o '-k %s -h \"\"' -w -l %s/log start" % (POSTGRES, self.room, self.room, self.room))
        return self

    def __exit__(self, *_):
        self.owner("%s/pg_ctl -D %s/data -m immediate stop" % (POSTGRES, self.room))

    def owner(self, command):
        subprocess.run(["su", "postgres", "-c", command], check=True, stdout=subprocess.DEVNULL, cwd="/")

    def run(self, text):
        words = ["psql", "-q", "-v", "ON_ERROR_STOP=1", "-h", self.room, "-U", "postgres", "-A", "-t"]
        return subprocess.run(words, input=text, text=True, check=True, capture_output=True).stdout

    def seconds(self, question):
        plans = [self.run("EXPLAIN (ANALYZE, FORMAT JSON) %s;" % question) for _ in range(TRIES)]
        return min(json.loads(plan)[0]["Execution Time"] for plan in plans) / 1000


def document(name, points):
    return spelled(name, [(second * 17 % 10_007, second * 31 % 10_009) for second in range(points)])


def spelled(name, way):
    datetimes = [datetime(second) for second in range(len(way))]
    geometry = {"type": "MovingPoint", "interpolation": "Linear", "datetimes": datetimes, "coordinates": way}
    return json.dumps({"type": "Feature", "id": name, "temporalGeometry": geometry}, separators=(",", ":"))


def datetime(second):
    return "2020-01-01T%02d:%02d:%02dZ" % (second // 3600, second // 60 % 60, second % 60)


def written(room, name, text):
    path = os.path.join(room, name)
    with open(path, "w") as file:
        file.write(text)
    return path


def built(room, name, source, *flags):
    path = os.path.join(room, name)
    compiler = "g++" if source.endswith(".cpp") else "gcc"
    subprocess.run([compiler, "-O2", "-o", path, os.path.join(HERE, source), *flags], check=True)
    return path


def rates(ways, empty):
    """How much each way does a second. What a run of nothing takes is taken off, where there is one."""
    least = {name: min(seconds(words) for _ in range(TRIES)) for name, words in empty.items()}
    best_of = {}
    for _ in range(TRIES):
        for name, (words, _) in ways.items():
            best_of[name] = min(seconds(words), best_of.get(name, 1e9))
    return {name: amount / (best_of[name] - least.get(name, 0)) for name, (_, amount) in ways.items()}


def best(words):
    return min(seconds(words) for _ in range(TRIES))


def seconds(words):
    """The processor's time of one run, that of the system included."""
    child = subprocess.Popen(words, stdout=subprocess.DEVNULL)
    _, status, usage = os.wait4(child.pid, 0)
    if status != 0:
        sys.exit("%s ended with status %d" % (words[0], os.waitstatus_to_exitcode(status)))
    return usage.ru_utime + usage.ru_stime


def by_clock(work):
    begun = time.monotonic()
    work()
    return time.monotonic() - begun


def told(work, figures):
    ours = figures.pop("mfpx")
    print("%s: mfpx %.4g" % (work, ours))
    for peer, figure in figures.items():
        print("    %-20s %10.4g    mfpx / it = %.2f" % (peer, figure, ours / figure), flush=True)


if __name__ == "__main__":
    if len(sys.argv) < 2:
        sys.exit(__doc__)
    main(*sys.argv[1:])

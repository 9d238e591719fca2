#!/usr/bin/env python3
"""What checkpoints and trims save: the time of a restart, votes that are kept, and memory; and what they cost what comes after.

    bench/checkpoints.py [PROGRAM [EARLIER]] [--only PART..]

PROGRAM is crates/mfpx/out/mfpx, which `rt run` in crates/mfpx builds; EARLIER is another build of it, whose appends are counted too.
The PARTs are restarts, files, learning, catching_up, votes, memory and appends; without any all of them are run.

Three nodes carry out appends, 50 between two flushes. The database has four features of 1,000 points and a small one, and its snapshot
text at most 100 KB. What a line costs is the difference of two schedules, in one of which it stands, perhaps many times. Times are of
the processor, best of five, of files once; instructions are counted by valgrind; gcc builds `malloccount.c`.
"""

import argparse
import os
import re
import resource
import sqlite3
import subprocess
import sys
import tempfile

HERE = os.path.dirname(os.path.abspath(__file__))
MEMORY = "/dev/shm" if os.path.isdir("/dev/shm") else None
TRIES = 5
NODES = range(3)
BATCH = 50
FEATURES, POINTS = 4, 1000
# The small feature is put anew each so many requests, which divides 65,536 - 10,000: the databases there are of one size.
PERIOD = 48
LATE, LOG = 60_000, 65_536
ARE_COUNTED = re.compile(r"I\s+refs:\s+([0-9,]+)")


# Schedules.


def datetime(second):
    return "2020-01-01T%02d:%02d:%02dZ" % (second // 3600, second // 60 % 60, second % 60)


def put(name):
    return ('put {"type":"Feature","id":"%s","temporalGeometry":{"type":"MovingPoint","datetimes":["%s"],"coordinates":[[0,0]],'
            '"interpolation":"Linear"}}' % (name, datetime(0)))


def added(name, point):
    """What a request does, as the words of its line: a feature begins anew, or gets its next point."""
    return put(name) if point == 0 else "append %s %s %d %d" % (name, datetime(point), point, point % 7)


def operation(slot):
    """The operation of the request at a slot: the large features first, and then the small one, again and again."""
    if slot < FEATURES * POINTS:
        return added("bus-%d" % (slot % FEATURES), slot // FEATURES)
    return added("bus-%d" % FEATURES, (slot - FEATURES * POINTS) % PERIOD)


def carried(slots, client=7, each=()):
    """The lines by which so many slots of a log get a request each, with further lines behind each 1,000."""
    lines = []
    for slot in range(slots):
        lines.append("submit 0 %d %d %s" % (client, slot + 1, operation(slot)))
        if slot + 1 == BATCH:
            # With requests waiting, so that no slot goes to a no-op.
            lines.append("timeout 0")
        if (slot + 1) % BATCH == 0 or slot + 1 == slots:
            lines.append("flush")
        if (slot + 1) % 1000 == 0:
            lines += each
    return lines


def of_all(*words):
    """A line of each word for each node."""
    return ["%s %d" % (word, node) for word in words for node in NODES]


# Runs.


def run(program, lines, words=(), **more):
    """A run of the schedule: what it printed, and its processor time."""
    with tempfile.NamedTemporaryFile("w", suffix=".schedule", dir=MEMORY) as file:
        file.write("\n".join(["nodes 3"] + lines) + "\n")
        file.flush()
        before = resource.getrusage(resource.RUSAGE_CHILDREN)
        done = subprocess.run([*more.pop("under", ()), program, "replay", file.name, *words], capture_output=True, text=True, **more)
        after = resource.getrusage(resource.RUSAGE_CHILDREN)
    if done.returncode != 0:
        sys.exit("the program ended with status %d: %s" % (done.returncode, done.stderr))
    return done, after.ru_utime + after.ru_stime - before.ru_utime - before.ru_stime


def seconds(program, lines, in_files=False):
    """The processor time of a run, over records in memory or in files."""
    if not in_files:
        return run(program, lines)[1]
    with tempfile.TemporaryDirectory(dir=MEMORY) as folder:
        return run(program, lines, ["--db", folder])[1]


def instructions(program, lines):
    """How many instructions a run takes."""
    under = ["valgrind", "--tool=cachegrind", "--cache-sim=no", "--cachegrind-out-file=/dev/null"]
    done, _ = run(program, lines, under=under)
    return int(ARE_COUNTED.search(done.stderr).group(1).replace(",", ""))


def held(program, lines):
    """How many bytes the program holds when the last line is done; the world is not given back before it ends."""
    with tempfile.TemporaryDirectory() as folder:
        library = os.path.join(folder, "malloccount.so")
        subprocess.run(["gcc", "-O2", "-Wall", "-shared", "-fPIC", os.path.join(HERE, "malloccount.c"), "-o", library, "-ldl"], check=True)
        from_note, to_note = os.pipe()
        run(program, lines, env={"LD_PRELOAD": library, "HELD_NOTE": str(to_note)}, pass_fds=[to_note])
        os.close(to_note)
        with os.fdopen(from_note) as note:
            return int(note.read())


def rows(program, lines):
    """What is in the files of a run: of each node how many votes there are, and how many bytes its records have."""
    with tempfile.TemporaryDirectory(dir=MEMORY) as folder:
        run(program, lines, ["--db", folder])
        found = []
        for node in NODES:
            connection = sqlite3.connect(os.path.join(folder, "node%d.db" % node))
            votes, = connection.execute("SELECT count(*) FROM record WHERE k >= X'56'").fetchone()
            size, = connection.execute("SELECT sum(length(k) + length(v)) FROM record").fetchone()
            connection.close()
            found.append((votes, size))
        return found


# Parts.


def stands_at(program, lines, node):
    """The position of a node behind these lines."""
    done, _ = run(program, lines + ["query %d count" % node])
    return int(done.stdout.splitlines()[-1].split()[2])


def restarts(program, in_files=False):
    """What a restart takes at 60,000 slots, with a checkpoint and a trim before it and with neither."""
    start, kept = carried(LATE), ["checkpoint 1", "trim 1"]
    tries = 1 if in_files else TRIES
    figures = []
    for before, count in ((start, 20), (start + kept, 20_000 if in_files else 1000)):
        least, most = (min(seconds(program, before + ["restart 1"] * times, in_files) for _ in range(tries)) for times in (0, count))
        figures.append((most - least) / count)
        print("  a restart of node 1 at %d slots, %s: %.6f s, at position %d"
              % (LATE, "with checkpoint and trim" if before is not start else "with neither", figures[-1],
                 stands_at(program, before + ["restart 1"], 1)), flush=True)
    print("  ratio %.5f" % (figures[1] / figures[0]), flush=True)


def files(program):
    restarts(program, in_files=True)


def learning(program):
    """The instructions of 5,000 commands that three nodes learn: new ones, and ones restarted from checkpoints at 60,000."""
    more, found = carried(5000, client=8), []
    for title, before in (("from slot 0 on", []), ("from position %d on" % LATE, carried(LATE) + of_all("checkpoint", "trim", "restart"))):
        found.append((instructions(program, before + more) - instructions(program, before)) / 5000)
        print("  %s: %.0f instructions a command" % (title, found[-1]), flush=True)
    print("  ratio %.3f" % (found[1] / found[0]), flush=True)


def catching_up(program):
    """The instructions of 2,000 commands that a node asks others for: a new one, and one restarted from its checkpoint at 60,000."""
    down, up = ["fault 1 read", "restart 1"], ["restart 1"]
    more, ask, found = carried(2000, client=8), ["tick 1", "flush"], []
    for title, before in (("from slot 0 on", []), ("from position %d on" % LATE, carried(LATE) + of_all("checkpoint", "trim", "restart"))):
        lines = before + down + more + up
        learnt = stands_at(program, lines + ask, 1) - stands_at(program, lines, 1)
        found.append((instructions(program, lines + ask) - instructions(program, lines)) / learnt)
        print("  %s: %.0f instructions a command, of %d" % (title, found[-1], learnt), flush=True)
    print("  ratio %.3f" % (found[1] / found[0]), flush=True)


def votes(program):
    """The votes that a node keeps which checkpoints and trims each 1,000 slots, just before it trims."""
    for slots in (2000, 10_000, 20_000, 35_000, 50_000, 65_000, LOG):
        lines = carried(slots, each=of_all("checkpoint", "trim"))
        while lines[-1].split()[0] in ("checkpoint", "trim"):
            lines.pop()
        print("  at %d slots: %s votes" % (slots, ", ".join(str(count) for count, _ in rows(program, lines))), flush=True)


def memory(program):
    """The bytes of nodes that were restarted from a checkpoint: what is given back when a restart fails, as the records can't be read."""
    found = []
    for slots in (10_000, LOG):
        lines = carried(slots, each=of_all("checkpoint", "trim")) + of_all("checkpoint", "trim")
        up = held(program, lines + of_all("restart"))
        down = held(program, lines + ["fault %d read" % node for node in NODES] + of_all("restart"))
        size = sum(size for _, size in rows(program, lines))
        found.append((up - down + size) / len(NODES))
        print("  at %d slots: %d bytes a node, and %d of records; the whole process %d"
              % (slots, (up - down) / len(NODES), size / len(NODES), up), flush=True)
    print("  ratio %.3f" % (found[1] / found[0]), flush=True)


def appends(program, earlier=None):
    """The instructions of appends without checkpoints, of this program and of an earlier one."""
    for slots in (2000, 10_000):
        counts = [instructions(it, carried(slots)) for it in (program, earlier) if it]
        print("  %d slots: %s instructions%s" % (slots, ", ".join("%d" % count for count in counts),
                                               "; ratio %.4f" % (counts[0] / counts[1]) if earlier else ""), flush=True)


PARTS = (restarts, files, learning, catching_up, votes, memory, appends)


def main():
    parser = argparse.ArgumentParser(description=__doc__, formatter_class=argparse.RawDescriptionHelpFormatter)
    parser.add_argument("program", nargs="?", default=os.path.join(HERE, "..", "crates", "mfpx", "out", "mfpx"))
    parser.add_argument("earlier", nargs="?")
    parser.add_argument("--only", nargs="+", choices=[part.__name__ for part in PARTS], default=[part.__name__ for part in PARTS])
    words = parser.parse_args()
    for part in PARTS:
        if part.__name__ in words.only:
            print(part.__name__, flush=True)
            part(os.path.abspath(words.program), *([words.earlier] if part is appends and words.earlier else []))


if __name__ == "__main__":
    main()

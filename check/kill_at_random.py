#!/usr/bin/env python3
"""A run whose nodes keep their records in files, ended by force at random moments.

    check/kill_at_random.py PROGRAM [TRIES] [SEED]

PROGRAM is the built `mfpx`; 200 tries and seed 1 where none are given.

The schedule delivers one frame a line, with drawn checkpoints and trims between, so a line makes at most one put or trim at a node. What
each beginning of it leaves in each node's file is known from undisturbed runs. After a run that was killed, each node's file, opened with
the log that lies beside it, has the records of some beginning. A file that was still being made holds none: its first byte is 0 until it
is a database.
"""
import os
import random
import signal
import sqlite3
import subprocess
import sys
import tempfile
import time

NODES = 3
CAMPAIGNS = 7
BEGIN = ["nodes 3", "submit 0 7 1 remove bus-7", "submit 1 8 1 remove bus-8", "timeout 0"]


def written(folder, lines):
    """The path of a schedule of these lines."""
    path = os.path.join(folder, "lines.schedule")
    with open(path, "w", encoding="ascii") as file:
        file.write("\n".join(lines) + "\n")
    return path


def records(folder, node):
    """What the node's file holds, as any program finds it; nothing where it is still being made."""
    path = os.path.join(folder, f"node{node}.db")
    if not os.path.exists(path):
        return ()
    with open(path, "rb") as file:
        if file.read(1) == b"\0":
            return ()
    connection = sqlite3.connect(path)
    try:
        return tuple(connection.execute("SELECT k, v FROM record ORDER BY k"))
    except sqlite3.OperationalError:
        return ()
    finally:
        connection.close()


def left_by(program, lines):
    """The status of a run over an empty folder, and what it leaves at each node."""
    with tempfile.TemporaryDirectory() as folder:
        schedule = written(folder, lines)
        status = subprocess.run([program, "replay", schedule, "--db", folder], capture_output=True, check=False).returncode
        return status, [records(folder, node) for node in range(NODES)]


def whole_run(program, drawn):
    """A schedule whose frames are delivered one by one, as long as there are any, with drawn checkpoints and trims, and what each
    beginning of it leaves."""
    lines, beginnings = list(BEGIN), [[()] * NODES, left_by(program, BEGIN)[1]]
    for campaign in range(1, CAMPAIGNS + 1):
        while True:
            for line in outs(drawn):
                lines = lines + [line]
                beginnings.append(left_by(program, lines)[1])
            longer = lines + [f"deliver {sum(line.startswith('deliver') for line in lines)}"]
            status, left = left_by(program, longer)
            if status != 0:
                break
            beginnings.append(left)
            lines = longer
        lines = lines + [f"submit 0 7 {campaign + 1} remove bus-{campaign % NODES}", f"timeout {campaign % NODES}"]
        beginnings.append(left_by(program, lines)[1])
    return lines, beginnings


def outs(drawn):
    """Drawn lines: mostly none, else a checkpoint of a node, a trim, or both."""
    node = drawn.randrange(NODES)
    return drawn.choice([[]] * 5 + [[f"checkpoint {node}"], [f"trim {node}"], [f"checkpoint {node}", f"trim {node}"]])


def is_between(rows):
    """Whether a file has a checkpoint and a vote at a slot below its position, as between a checkpoint and a trim."""
    kept = dict(rows)
    return b"C" in kept and any(key[:1] == b"V" and key[1:] < kept[b"C"][:4] for key in kept)


def lasted(program, lines):
    """How long an undisturbed run takes."""
    with tempfile.TemporaryDirectory() as folder:
        schedule = written(folder, lines)
        start = time.monotonic()
        subprocess.run([program, "replay", schedule, "--db", folder], stdout=subprocess.DEVNULL, check=True)
        return time.monotonic() - start


def killed(program, lines, moment):
    """What a run that is killed at the moment leaves at each node."""
    with tempfile.TemporaryDirectory() as folder:
        schedule = written(folder, lines)
        with subprocess.Popen([program, "replay", schedule, "--db", folder], stdout=subprocess.DEVNULL) as process:
            time.sleep(moment)
            process.send_signal(signal.SIGKILL)
        return [records(folder, node) for node in range(NODES)]


def main():
    program = os.path.abspath(sys.argv[1])
    tries = int(sys.argv[2]) if len(sys.argv) > 2 else 200
    drawn = random.Random(int(sys.argv[3]) if len(sys.argv) > 3 else 1)
    lines, beginnings = whole_run(program, drawn)
    length = min(lasted(program, lines) for _ in range(5))
    wrong = between = untrimmed = 0
    good = []
    for _ in range(tries):
        moment = drawn.uniform(0, length)
        if good and drawn.random() < 0.8:
            # Most of a run goes into the making of its files, so look again near where it was on its way.
            moment = drawn.choice(good) * drawn.uniform(0.9, 1.1)
        left = killed(program, lines, moment)
        wrong += any(left[node] not in [b[node] for b in beginnings] for node in range(NODES))
        is_inside = left not in (beginnings[0], beginnings[-1])
        between += is_inside
        good += [moment] * is_inside
        untrimmed += is_inside and any(map(is_between, left))
    print(f"{len(lines)} lines, {tries} runs killed, {between} of them between its beginning and its end, {untrimmed} between a checkpoint "
          f"and a trim, {wrong} wrong")
    return 1 if wrong else 0


if __name__ == "__main__":
    sys.exit(main())

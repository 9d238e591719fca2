#!/usr/bin/env python3
"""Runs every worked example on which the program was built once more, each under the name of what it shows.

    check/rows.py [--mfpx PROGRAM] [--conformance PROGRAM] [--tests PROGRAM] [--run_tests PROGRAM] [--list]

The programs are crates/mfpx/out/mfpx, crates/conformance/out/conformance, crates/tests/out/tests_tests and
crates/run_tests/out/run_tests_tests where none are given.

What has to come stands here, as it was worked out by hand before there was a program; of the three longest it stands in `examples`. A row
is a schedule and its transcript, or its fault; queries over some features and their answers; a document; frames; a run over files or
sockets; or calls of a library, which are tests. Each row that comes to something else is printed, and the script ends
with 1 then. Rows whose program isn't there are left out, and named. `--list` prints the names alone.
"""

import argparse
import os
import sqlite3
import subprocess
import sys
import tempfile

HERE = os.path.dirname(os.path.abspath(__file__))
TOP = os.path.dirname(HERE)
EXAMPLES = os.path.join(TOP, "examples")
MEMORY = "/dev/shm" if os.path.isdir("/dev/shm") else None


# Words of schedules.


def at(second):
    """A datetime, so many seconds after 2020 begins, perhaps with thousandths."""
    thousandths = round(second * 1000)
    return "2020-01-01T00:00:%02d.%03dZ" % divmod(thousandths, 1000)


def document(name, interpolation, *points):
    """A feature; each point is a second, or a datetime, and its coordinates."""
    times = ",".join('"%s"' % (it[0] if isinstance(it[0], str) else at(it[0])) for it in points)
    places = ",".join("[%d,%d]" % it[1:] for it in points)
    return ('{"id":"%s","temporalGeometry":{"coordinates":[%s],"datetimes":[%s],"interpolation":"%s","type":"MovingPoint"},'
            '"type":"Feature"}' % (name, places, times, interpolation))


BUS = document("bus-7", "Linear", (0, 0, 0), (3, 10, 5))
LONG = document("bus-7", "Linear", *(("2020-01-01T00:%02d:%02dZ" % divmod(s, 60), s, 0) for s in range(513)))
REMOVAL = ["nodes 3", "submit 0 7 1 remove bus-7"]
ONE_REQUEST = REMOVAL + ["timeout 0", "flush"]
ONE_REQUEST_TOLD = ["learn 0 0 7:1", "reply 0 7:1 21", "learn 1 0 7:1", "learn 2 0 7:1"]
RESTARTED = ONE_REQUEST + ["restart 0", "query 0 count", "tick 0", "flush", "submit 0 7 1 remove bus-7", "timeout 0", "flush",
                           "submit 0 7 3 remove bus-7", "flush"]
CHECKPOINTED = ["checkpoint 0", "trim 0", "restart 0", "query 0 count", "checkpoint 0", "restart 1", "round 1 0 1", "round 1 1 2"]
CHECKPOINTED_TOLD = ["answer 0 1 count 0", "refuse 0 49", "round 1 behind 0", "learn 1 0 7:1", "round 1 decided 0"]
TEXT = "0000000107000000000000000115"


def deliveries(*frames):
    return ["deliver %d" % it for it in frames]


def unsure(how):
    """A leader's proposal reaches node 1, whose put of the vote fails so; then node 2 leads."""
    return REMOVAL + ["timeout 0"] + deliveries(0, 1, 3, 4) + ["fault 1 %s" % how, "deliver 6", "restart 1"]


class Programs:
    """The programs, and what they come to."""

    def __init__(self, mfpx, conformance, tests, run_tests):
        self.mfpx, self.conformance, self.tests, self.run_tests = mfpx, conformance, tests, run_tests

    def run(self, words, text=b""):
        done = subprocess.run([self.mfpx, *words], input=text, capture_output=True, timeout=120)
        return done.returncode, done.stdout.decode(), done.stderr.decode()

    def replayed(self, lines, *words, work="replay"):
        return self.run([work, "-", *words], spelled(lines).encode())

    def answers(self, features, queries):
        """What node 0 answers once the features are put."""
        lines = ["nodes 3"] + ["submit 0 %d 1 put %s" % it for it in enumerate(features)] + ["timeout 0", "flush"]
        told = self.replayed(lines + ["query 0 %s" % it for it in queries])[1].splitlines()
        return [line.split(" ", 3)[3] for line in told if line.startswith("answer ")]


def spelled(lines):
    return "".join(line + "\n" for line in lines)


# Rows: each takes the programs, and says what came and what has to.


def transcript(lines, told):
    return "mfpx", lambda it: (it.replayed(lines), (0, spelled(told), ""))


def fault(lines, line, number):
    return "mfpx", lambda it: (it.replayed(lines), (1, "", "mfpx: line %d fault %d\n" % (line, number)))


def answers(features, *asked):
    """Queries in pairs with their answers."""
    return "mfpx", lambda it: (it.answers(features, asked[::2]), list(asked[1::2]))


def each_instant():
    """A feature at 1,024 instants in a row, asked for each of them and for the next one."""
    time = "1970-01-01T00:00:%02d.%03dZ"
    first = document("a", "Discrete", *((time % divmod(ms, 1000), ms, 0) for ms in range(512)))
    lines = ["nodes 3", "submit 0 7 1 put " + first, "timeout 0"]
    for ms in range(512, 1024):
        lines += ["submit 0 7 %d append a %s %d 0" % (ms - 510, time % divmod(ms, 1000), ms)] + ["flush"] * (ms % 32 == 31)
    lines += ["query 0 at a " + time % divmod(ms, 1000) for ms in range(1025)]

    def judge(it):
        told = it.replayed(lines)[1].splitlines()[-1025:]
        return [line.split(" ", 3)[3] for line in told], ["at %d 0" % ms for ms in range(1024)] + ["at none"]
    return "mfpx", judge


def checked(text, canonical):
    return "mfpx", lambda it: (it.run(["check", "-"], text.encode()), (0, canonical + "\n", ""))


def rejected(text, told):
    return "mfpx", lambda it: (it.run(["check", "-"], text.encode()), (1, "", "mfpx: document fault %s\n" % told))


def frames(nodes, *pairs):
    """Frames in pairs with what is told of them, which is the frame itself where nothing is."""
    def judge(it):
        text = "".join("frame %d %s\n" % (nodes, frame.replace(" ", "").lower()) for frame in pairs[::2])
        done = subprocess.run([it.conformance], input=text, capture_output=True, text=True, timeout=60)
        return done.stdout.splitlines(), [told or frame.replace(" ", "").lower() for frame, told in zip(pairs[::2], pairs[1::2])]
    return "conformance", judge


def through_sockets(lines, told):
    """The lines come in some order; no datagram is foreign."""
    def judge(it):
        status, out, err = it.replayed(lines, work="loopback")
        came = out.splitlines()
        return (status, sorted(came[:-1]), came[-1:], err), (0, sorted(told), ["strangers 0"], "")
    return "mfpx", judge


def over_files(lines, told, left):
    """The run over an empty folder; what is in it then, by a function of the folder; and that the same again is refused."""
    def judge(it):
        with tempfile.TemporaryDirectory(dir=MEMORY) as folder:
            first, found, again = it.replayed(lines, "--db", folder), left(folder), it.replayed(lines, "--db", folder)
        return (first, found, again), ((0, spelled(told), ""), True, (1, "", "mfpx: fault 55\n"))
    return "mfpx", judge


def has_three_files(folder):
    return sorted(os.listdir(folder)) == ["node%d.db" % node for node in range(3)]


def has_checkpoint(folder):
    """Whether node 0's record is position 1, the promise (1, node 0), and the text."""
    connection = sqlite3.connect(os.path.join(folder, "node0.db"))
    rows = connection.execute("SELECT v FROM record WHERE k = X'43'").fetchall()
    votes = connection.execute("SELECT count(*) FROM record WHERE k >= X'56'").fetchone()
    connection.close()
    return rows == [(bytes.fromhex("00000001" + "01" + "0000000000000001" + "00" + TEXT),)] and votes == (0,)


def example(name):
    """The example of this name, of the folder `examples`."""
    def judge(it):
        with open(os.path.join(EXAMPLES, name + ".schedule")) as file:
            lines = file.read().splitlines()
        with open(os.path.join(EXAMPLES, name + ".transcript")) as file:
            return it.replayed(lines), (0, file.read(), "")
    return "mfpx", judge


def example_through_sockets(name, turn):
    """The example, in which all that comes between a line and the last queries is a flush."""
    def judge(it):
        with open(os.path.join(EXAMPLES, name + ".schedule")) as file:
            lines = file.read().splitlines()
        begin, end = lines.index(turn), len(lines)
        while lines[end - 1].startswith("query "):
            end -= 1
        asked = sum(line.startswith("query ") for line in lines[begin:end])
        with open(os.path.join(EXAMPLES, name + ".transcript")) as file:
            told = file.read().splitlines()
        # What was asked for in the midst of it is left out.
        early = [line for line in told if line.startswith("answer ")][:asked]
        flushed = lines[:begin + 1] + ["flush"] + lines[end:]
        return through_sockets(flushed, [line for line in told if line not in early])[1](it)
    return "mfpx", judge


def same_documents(name, names, *nodes):
    """Behind the example the nodes are asked for these features: their answers are the same."""
    def judge(it):
        with open(os.path.join(EXAMPLES, name + ".schedule")) as file:
            lines = file.read().splitlines()
        asked = ["query %d get %s" % (node, feature) for node in nodes for feature in names]
        told = [line.split(" ", 2)[2] for line in it.replayed(lines + asked)[1].splitlines()[-len(asked):]]
        first = told[:len(names)]
        return told, [line for line in first if " get {" in line] * len(nodes)
    return "mfpx", judge


def calls(*names):
    """Tests of these names pass."""
    needed = "run_tests" if names[0].startswith("runs::") else "tests"

    def judge(it):
        program = getattr(it, needed)
        return [name for name in names if subprocess.run([program, name], capture_output=True, timeout=300).returncode != 0], []
    return needed, judge


def frames_sent(lines, count):
    """The run sends so many frames: the last one is there, and the next one isn't."""
    def judge(it):
        return ([it.replayed(lines + ["drop %d" % frame])[0] for frame in (count - 1, count)], [0, 1])
    return "mfpx", judge


PROGRAMS = {
    "mfpx": "mfpx/out/mfpx",
    "conformance": "conformance/out/conformance",
    "tests": "tests/out/tests_tests",
    "run_tests": "run_tests/out/run_tests_tests",
}

ROWS = {
    # Values and queries.
    "a third of the way": answers([BUS, document("b", "Linear", (0, 0, 0), (3, -10, 6))],
                                  "at bus-7 " + at(1), "at 10/3 5/3", "at b " + at(1), "at -10/3 2"),
    "a step": answers([document("bus-7", "Step", (0, 0, 0), (3, 10, 5))], "at bus-7 " + at(1), "at 0 0", "at bus-7 " + at(3), "at 10 5",
                      "at bus-7 " + at(4), "at none"),
    "between points, and nobody": answers([document("bus-7", "Discrete", (0, 0, 0), (3, 10, 5))], "at bus-7 " + at(1), "at none",
                                          "at x " + at(1), "absent"),
    "a cut at both ends": answers([BUS], "cut bus-7 %s %s" % (at(1), at(2)),
                                  "cut Linear 2 | 1577836801000 10/3 5/3 | 1577836802000 20/3 10/3"),
    "a corner, and past it": answers([document("a", "Linear", (0, 0, 0), (1, 10, 10))],
                                     "ever a %s %s 5 0 10 5" % (at(0), at(1)), "ever yes",
                                     "ever a %s %s 6 0 10 5" % (at(0), at(1)), "ever no"),
    "a third of a second": answers([document("a", "Linear", (0, 0, 0), (1, 3, 3))], "ever a %s %s 1 1 1 1" % (at(0), at(1)), "ever yes"),
    "always, and no instant": answers([BUS], "always bus-7 %s %s 0 0 10 10" % (at(4), at(5)), "always none",
                                      "always bus-7 %s %s 0 0 10 10" % (at(3), at(4)), "always yes"),
    "until the next step": answers([document("a", "Step", (0, 0, 0), (3, 9, 9))],
                                   "always a %s %s 0 0 5 5" % (at(0), at(2.999)), "always yes",
                                   "always a %s %s 0 0 5 5" % (at(0), at(3)), "always no"),
    "from end to end of all there is": answers(
        [document("a", "Linear", ("1970-01-01T00:00:00.000Z", -10**10, -10**10), ("9999-12-31T23:59:59.999Z", 10**10, 10**10))],
        "ever a 1970-01-01T00:00:00Z 9999-12-31T23:59:59.999Z 0 0 0 0", "ever yes",
        "ever a 1970-01-01T00:00:00Z 9999-12-31T23:59:59.999Z 0 1 0 1", "ever no",
        "always a 1970-01-01T00:00:00Z 9999-12-31T23:59:59.999Z -10000000000 -10000000000 10000000000 10000000000", "always yes"),
    "each of 1,024 instants": each_instant(),
    "who is there in a period": transcript(
        ["nodes 3", "submit 0 7 1 put " + document("a", "Linear", (0, 0, 0), (1, 1, 1)), "timeout 0", "flush",
         "query 0 within %s %s 0 0 5 5" % (at(1), at(2)), "query 0 within %s %s 0 0 5 5" % (at(1.001), at(2)),
         "submit 0 7 2 append a %s 2 2" % at(3), "flush", "query 0 within %s %s 0 0 5 5" % (at(1.001), at(2)),
         "submit 0 7 3 remove a", "flush", "query 0 within %s %s 0 0 5 5" % (at(1.001), at(2))],
        ["learn 0 0 7:1", "reply 0 7:1 0", "learn 1 0 7:1", "learn 2 0 7:1", "answer 0 1 within 1 a", "answer 0 1 within 0",
         "learn 0 1 7:2", "reply 0 7:2 0", "learn 1 1 7:2", "learn 2 1 7:2", "answer 0 2 within 1 a",
         "learn 0 2 7:3", "reply 0 7:3 0", "learn 1 2 7:3", "learn 2 2 7:3", "answer 0 3 within 0"]),

    # Periods with open ends.
    "an end that is out": answers([document("a", "Linear", (0, 0, 0), (1, 10, 0))], "ever a [%s %s) 10 0 20 0" % (at(0), at(1)), "ever no",
                                  "ever a [%s %s] 10 0 20 0" % (at(0), at(1)), "ever yes"),
    "a cut without its ends": answers([BUS], "cut bus-7 (%s %s)" % (at(1), at(2)),
                                      "cut Linear 2 () | 1577836801000 10/3 5/3 | 1577836802000 20/3 10/3"),
    "a step cut before its end": answers([document("a", "Step", (0, 0, 0), (3, 9, 9))], "cut a [%s %s)" % (at(0), at(3)),
                                         "cut Step 2 [) | 1577836800000 0 0 | 1577836803000 0 0",
                                         "always a [%s %s) 0 0 5 5" % (at(0), at(3)), "always yes"),
    "a cut of nothing": answers([BUS], "cut bus-7 (%s %s]" % (at(3), at(4)), "cut none"),

    # Documents, frames, faults of schedules.
    "a canonical document": checked(BUS, BUS),
    "a document with blanks": checked(
        ' { "type" : "Feature", "id":"bus-7" ,"temporalGeometry":{"type":"MovingPoint","interpolation":"Linear",'
        '"datetimes":["2020-01-01T00:00:00Z","2020-01-01T00:00:03Z"],"coordinates":[[0,0],[10,5]]}}', BUS),
    "a fraction is no coordinate": rejected(BUS.replace("[10,5]", "[10.0,5]"), "8 at 1"),
    "before 1970": rejected(BUS.replace("2020-01-01T00:00:00.000Z", "1969-12-31T23:59:59.999Z"), "7 at 0"),
    "the last millisecond": checked(BUS.replace("2020-01-01T00:00:03.000Z", "9999-12-31T23:59:59.999Z"),
                                    BUS.replace("2020-01-01T00:00:03.000Z", "9999-12-31T23:59:59.999Z")),
    "two equal datetimes": rejected(BUS.replace("00:03.000Z", "00:00.000Z"), "12 at 1"),
    "second 60": rejected(BUS.replace("00:00.000Z", "00:60.000Z"), "7 at 0"),
    "a prepare, cut and longer": frames(
        3, "4D50 01 01 00 01 0000000000000001 00 00000000", "", "4D50 01 01 00 01 0000000000000001 00 000000", "fault 1",
        "4D50 01 01 00 01 0000000000000001 00 00000000 00", "fault 6"),
    "one frame of each of the first kinds": frames(
        3, "4D50 01 02 00 00 0000000000000001 00 00000000 0000FFFF 00", "",
        "4D50 01 03 00 00 0000000000000001 00 0000000000000001 02", "",
        "4D50 01 04 00 01 0000000000000001 00 00000000 01 07 0000000000000001 03 05 6275732D37", "",
        "4D50 01 06 00 01 00000000", "", "4D50 01 07 01 00 00000000 01 07 0000000000000001 03 05 6275732D37", ""),
    "frames that carry a snapshot": frames(
        3, "4D50 02 0A 00 02 00000001", "", "4D50 02 08 02 00 00000001 00000000", "",
        "4D50 02 09 00 02 00000001 0000000E 00000000 000E " + TEXT, "", "4D50 03 0A 00 02 00000001", "fault 3",
        "4D50 01 0A 00 02 00000001", "fault 4", "4D50 02 01 00 01 0000000000000001 00 00000000", "fault 4"),
    "four nodes": fault(["nodes 4"], 1, 3),
    "no line": fault([], 1, 3),
    "a frame that was never sent": fault(["nodes 3", "deliver 0"], 2, 51),

    # Requests and replies.
    "a request comes again": transcript(
        ["nodes 3", "submit 0 7 1 put " + BUS, "timeout 0", "flush", "submit 1 7 1 put " + BUS, "timeout 1", "flush"]
        + ["query %d count" % node for node in range(3)],
        ["learn 0 0 7:1", "reply 0 7:1 0", "learn 1 0 7:1", "learn 2 0 7:1"]
        + ["learn 0 1 7:1", "learn 1 1 7:1", "reply 1 7:1 0", "learn 2 1 7:1"]
        + ["answer %d 2 count 1" % node for node in range(3)]),
    "numbers of a client, early and past": transcript(
        ["nodes 3", "submit 0 7 2 remove a", "timeout 0", "flush", "submit 0 7 1 remove a", "flush", "submit 0 7 2 remove a", "flush",
         "submit 0 7 1 remove a", "flush", "submit 0 7 2 put " + BUS, "flush"],
        [line for slot, number, code in ((0, 2, 32), (1, 1, 21), (2, 2, 21), (3, 1, 31), (4, 2, 21))
         for line in ("learn 0 %d 7:%d" % (slot, number), "reply 0 7:%d %d" % (number, code), "learn 1 %d 7:%d" % (slot, number),
                      "learn 2 %d 7:%d" % (slot, number))]),
    "256 features": example("most_features"),
    "1,024 points": example("most_instants"),
    "the longest put": transcript(["nodes 3", "submit 0 7 1 put " + LONG], ["refuse 0 45"]),
    "65 requests wait": transcript(["nodes 3"] + ["submit 0 7 %d remove a" % n for n in list(range(1, 66)) + [1]], ["refuse 0 44"]),

    # Runs.
    "one request": transcript(ONE_REQUEST, ONE_REQUEST_TOLD),
    "eighteen frames": frames_sent(ONE_REQUEST, 18),
    "every node answers": transcript(
        ["nodes 3", "submit 0 7 1 put " + BUS, "timeout 0", "flush", "query 1 at bus-7 " + at(1)],
        ["learn 0 0 7:1", "reply 0 7:1 0", "learn 1 0 7:1", "learn 2 0 7:1", "answer 1 1 at 10/3 5/3"]),
    "a vote that was written all the same": transcript(
        unsure("new") + ["timeout 2"] + deliveries(9, 10, 11, 12, 14, 15, 18, 21), ["stop 1 46", "learn 2 0 7:1"]),
    "a vote that was not written": transcript(
        unsure("old") + ["timeout 2"] + deliveries(9, 10, 11, 12, 14, 15, 18, 21), ["stop 1 46", "learn 2 0 noop"]),
    "a round behind a vote that was written": transcript(
        unsure("new") + ["round 2 1 2"], ["stop 1 46", "learn 2 0 7:1", "round 2 decided 0"]),
    "a round behind no vote": transcript(unsure("old") + ["round 2 1 2"], ["stop 1 46", "learn 2 0 noop", "round 2 decided 0"]),
    "a restarted leader": transcript(
        RESTARTED, ONE_REQUEST_TOLD + ["answer 0 0 count 0", "learn 0 0 7:1", "learn 0 1 7:1", "reply 0 7:1 21", "learn 1 1 7:1",
                                       "learn 2 1 7:1", "learn 0 2 7:3", "reply 0 7:3 32", "learn 1 2 7:3", "learn 2 2 7:3"]),
    "a leader prepares once": frames_sent(RESTARTED, 53),
    "a gap is filled": transcript(
        ["nodes 3", "submit 0 7 1 remove a", "submit 0 8 1 remove b", "timeout 0"] + deliveries(0, 1, 3, 4, 9)
        + ["round 2 1 2", "query 2 count"],
        ["learn 2 0 noop", "learn 2 1 8:1", "round 2 decided 0", "answer 2 2 count 0"]),
    "a round that is too low": transcript(
        ["nodes 3", "round 2 0 2", "round 0 0 1", "round 0 0 1"],
        ["learn 2 0 noop", "round 2 decided 0", "round 0 low 1.2", "learn 0 0 noop", "round 0 decided 0"]),
    "no quorum of five": transcript(["nodes 5", "round 0 0 1", "round 0 1 2 3", "round 0 0 1 2"],
                                    ["round 0 noquorum", "round 0 noquorum", "learn 0 0 noop", "round 0 decided 0"]),
    "promises of a range": calls("nodes::news::what_is_heard_is_learnt_and_answered"),
    "one request through sockets": through_sockets(ONE_REQUEST, ONE_REQUEST_TOLD),
    "a round through sockets": through_sockets(["nodes 3", "round 0 0 1"], ["learn 0 0 noop", "round 0 decided 0"]),
    "queues that repeat and reverse, foreign and failing ones": calls(
        "runs::clusters::clusters_send", "runs::clusters::one_request_over_queues", "runs::clusters::polls_that_fail",
        "runs::clusters::rounds_in_each_others_way"),

    # Records.
    "one request over files": over_files(ONE_REQUEST, ONE_REQUEST_TOLD, has_three_files),
    "records that can't be read": transcript(
        ONE_REQUEST + ["fault 0 read", "restart 0", "restart 0", "query 0 count"], ONE_REQUEST_TOLD + ["stop 0 46", "answer 0 0 count 0"]),
    "damaged records": calls("nodes::faults::damaged_records_keep_a_node_down", "nodes::checkpoints::damaged_checkpoints_keep_a_node_down"),

    # Checkpoints and what was forgotten.
    "a checkpoint in a file": over_files(ONE_REQUEST + CHECKPOINTED[:2], ONE_REQUEST_TOLD, has_checkpoint),
    "a restart from a checkpoint": transcript(ONE_REQUEST + CHECKPOINTED, ONE_REQUEST_TOLD + CHECKPOINTED_TOLD),
    "a restart from a checkpoint over files": over_files(ONE_REQUEST + CHECKPOINTED, ONE_REQUEST_TOLD + CHECKPOINTED_TOLD, has_three_files),
    "a promise outlives its vote": transcript(
        ["nodes 3", "timeout 1", "timeout 1", "flush", "checkpoint 0", "trim 0", "restart 0", "round 2 0 2"],
        ["learn 0 0 noop", "learn 1 0 noop", "learn 2 0 noop", "round 2 low 2.1"]),
    "a promise that a trimmed vote raised": calls("nodes::checkpoints::faults_wait_for_checkpoints_and_trims"),
    "a snapshot in one part": transcript(
        REMOVAL + ["round 0 0 1", "checkpoint 0", "trim 0", "restart 0", "tick 2"] + deliveries(14, 16, 17, 19) + ["query 2 count"],
        ["learn 0 0 7:1", "reply 0 7:1 21", "round 0 decided 0", "restore 2 1", "answer 2 1 count 0"]),
    "a snapshot in two parts": example("snapshot_in_two_parts"),
    "a snapshot in two parts through sockets": example_through_sockets("snapshot_in_two_parts", "tick 2"),
    "the documents of a snapshot in two parts": same_documents("snapshot_in_two_parts", "abc", 0, 1, 2),
    "a node is back after a long outage": example("node_back_after_a_long_outage"),
    "parts in every order": calls("nodes::snapshots::what_was_forgotten_is_fetched", "nodes::snapshots::parts_come_in_any_order"),
}


def main():
    parser = argparse.ArgumentParser(description=__doc__, formatter_class=argparse.RawDescriptionHelpFormatter)
    for name, built in PROGRAMS.items():
        parser.add_argument("--" + name, default=os.path.join(TOP, "crates", built), metavar="PROGRAM")
    parser.add_argument("--list", action="store_true", help="print the names of the rows")
    asked = parser.parse_args()
    if asked.list:
        print("\n".join(ROWS))
        return 0
    paths = {name: os.path.abspath(getattr(asked, name)) for name in PROGRAMS}
    programs, wrong, left_out = Programs(**paths), [], []
    for name, (needs, judge) in ROWS.items():
        if not os.path.exists(paths[needs]):
            left_out.append(name)
            continue
        came, wanted = judge(programs)
        if came != wanted:
            wrong.append(name)
            print("%s:\n  came   %.600r\n  wanted %.600r" % (name, came, wanted))
    without = "; left out, without a program: %s" % ", ".join(left_out) if left_out else ""
    print("%d rows, %s%s" % (len(ROWS) - len(left_out), "WRONG: %s" % ", ".join(wrong) if wrong else "all right", without))
    return 1 if wrong or left_out else 0


if __name__ == "__main__":
    sys.exit(main())

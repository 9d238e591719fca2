#!/usr/bin/env python3
"""Runs `mfpx` again and again, each time with another request for memory refused, and judges how each run ends.

    check/refuse_memory.py [PROGRAM [NAME..]]

PROGRAM is crates/mfpx/out/mfpx where none is given. The NAMEs are of examples, or paths of files `.schedule` and `.json`; without any
seven short examples are run. `all` is every example; those of thousands of lines take hours.

The first run refuses the first request, the second the second, and so on until a run meets no refusal. A run ends well in
one of these ways:

    right         status 0 and the transcript of a run with ample memory
    stopped       status 0; the lines before `stop NODE 47` are those of the right transcript, and one list explains all
    refused       the same with `refuse NODE 47`, of a query
    began down    as if that node had been down from the start
    no frame      status 1 and fault 51 at a line that delivers or drops what was never sent, as a node was down by then
    no memory     status 3, nothing printed, and `mfpx: out of memory`

Each example is run as it is, with the lines of `afterwards` behind it, and for each node M with lines of `OUT` before each of its lines:
checkpoints, trims and restarts of M, and faults of these.

Each transcript of a schedule of at most 200 lines has to be explained by `one_log.py` besides, whatever its end.

A check of a document ends as with ample memory, or out of memory.

Every other end is printed, and the script then ends with 1. It needs gcc, for a malloc that it preloads.
"""

import glob
import os
import subprocess
import sys
import tempfile

import one_log

HERE = os.path.dirname(os.path.abspath(__file__))
EXAMPLES = os.path.join(HERE, "..", "examples")
NAMES = ("first_run", "leaders_in_turn", "requests_after_a_restart", "gap_filled_by_a_no_op", "round_too_low", "snapshot_in_one_part",
         "bus-7")
SHORT = 200
# What comes before a line, each in its turn.
OUT = (("checkpoint M", "trim M"), ("checkpoint M", "trim M", "restart M"), ("fault M old", "checkpoint M", "restart M"),
       ("fault M new", "checkpoint M", "restart M", "trim M"), ("checkpoint M", "fault M old", "trim M", "restart M"),
       ("checkpoint M", "fault M new", "trim M", "restart M"), ("fault M read", "restart M", "restart M"))
ENDS = ("right", "stopped", "refused", "began down", "no frame", "no memory")


def nodes_of(lines):
    """How many nodes a schedule has, as its first line says."""
    return int(lines[0].split()[1])


def afterwards(lines):
    """A restart and a tick of each node, a flush, and a query of each."""
    nodes = range(nodes_of(lines))
    return ["restart %d" % n for n in nodes] + ["tick %d" % n for n in nodes] + ["flush"] + ["query %d count" % n for n in nodes]


def with_outs(runs, lines, node):
    """The lines with checkpoints and trims of a node between them, and without those that name a frame which is never sent then."""
    found = lines[:1]
    for place, line in enumerate(lines[1:]):
        found += [more.replace("M", str(node)) for more in OUT[place % len(OUT)]] + [line]
    while True:
        status, _, error, _ = runs.run(found)
        at = int(error.split()[2]) - 1 if status == 1 else -1
        if status != 1 or found[at].split()[0] not in ("deliver", "drop"):
            return found
        found = found[:at] + found[at + 1:]


class Runs:
    """Runs of the program over schedules, with a request refused."""

    def __init__(self, program, library):
        self.program = program
        self.library = library

    def run(self, lines, words=(), refused=0):
        """Status, transcript, standard error, and whether a request was refused."""
        status, told, error, met = self.run_bytes("".join(line + "\n" for line in lines).encode(), words, refused)
        return status, told.decode().splitlines(), error.decode(), met

    def run_bytes(self, text, words=(), refused=0):
        """The same of any file, with the bytes that were printed."""
        from_note, to_note = os.pipe()
        environment = {"LD_PRELOAD": self.library, "FAIL_AT": str(refused), "FAIL_NOTE": str(to_note)} if refused else {}
        with tempfile.NamedTemporaryFile() as file:
            file.write(text)
            file.flush()
            given = [file.name if word == "FILE" else word for word in words]
            done = subprocess.run([self.program] + given, input=text, capture_output=True, env=environment,
                                  pass_fds=[to_note], timeout=60)
        os.close(to_note)
        met = os.read(from_note, 1) != b""
        os.close(from_note)
        return done.returncode, done.stdout, done.stderr, met


# What a database answers that has less than the right run's: no feature, or one that doesn't reach so far yet.
LESS = ("count 0", "absent", "within 0", "at none")
CODES = ("0", "21", "22", "23", "24", "31", "32")


def answers(transcript):
    """The texts of all answers in a transcript."""
    return {told.split(" ", 3)[3] for told in transcript if told.startswith("answer ")}


def submissions(lines):
    """Each request that clients ask for, as a transcript names it, with the nodes that are asked."""
    asked = {}
    for line in lines:
        if line.startswith("submit "):
            _, node, client, number, _ = line.split(" ", 4)
            asked.setdefault("%s:%s" % (client, number), set()).add(node)
    return asked


def is_explained(lines, transcript, texts):
    """Whether one log may explain what nodes learnt, replied and answered: a slot has one command, a no-op or a request; a reply is of
    a request that its node was asked for and has learnt; an answer speaks of slots that are all learnt, and has one of these texts,
    which a run with ample memory gave, or that of a database that has less."""
    asked, log, learnt = submissions(lines), {}, set()
    for told in transcript:
        word, node, *rest = told.split()
        if word == "learn":
            slot, command = int(rest[0]), rest[1]
            if (command != "noop" and command not in asked) or log.setdefault(slot, command) != command:
                return False
            learnt.add((node, command))
        elif word == "reply":
            if (node, rest[0]) not in learnt or node not in asked[rest[0]] or rest[1] not in CODES:
                return False
        elif word == "answer":
            if any(slot not in log for slot in range(int(rest[0]))) or " ".join(rest[1:]) not in texts | set(LESS):
                return False
    return True


def one_list_explains(lines, transcript):
    """Whether the checker that executes the log finds a list that explains the run. Long runs, and undecided ones, are passed over."""
    if len(lines) > SHORT:
        return True
    schedule, told = ("".join(line + "\n" for line in text) for text in (lines, transcript))
    try:
        one_log.explain(schedule.encode(), told, memory=True)
    except one_log.Unexplained:
        return False
    except one_log.Undecided:
        pass
    return True


def shared(a, b):
    """How many lines two transcripts share at their beginning."""
    return next((i for i, (x, y) in enumerate(zip(a, b)) if x != y), min(len(a), len(b)))


def with_flushes(lines, number):
    """The lines, where those that name a frame are flushes from this number on, with as many bytes. The other lines stay, as some of
    them ask for memory when they are read, and the same request has to be refused."""
    kept = lines[:number - 1]
    for line in lines[number - 1:]:
        names_a_frame = line.split(" ")[0] in ("deliver", "drop")
        kept += ["flush"] + [""] * (len(line) - len("flush")) if names_a_frame else [line]
    return kept


class Job:
    """A schedule, and what comes of it with ample memory: as it is, and with each node down from the start."""

    def __init__(self, runs, lines, words):
        self.runs, self.lines, self.words = runs, lines, words
        self.status, self.right, self.error, _ = runs.run(lines, words)
        # A node whose first write fails is down, and nothing else has happened.
        self.down = []
        for node in range(nodes_of(lines)):
            fails = ["fault %d old" % node, "timeout %d" % node]
            status, told, _, _ = runs.run(lines[:1] + fails + lines[1:], words)
            self.down.append((status, told[1:]))

    def judged(self, refused, end):
        """Which of the ends this is, of a run with this request refused; None if it is none of them."""
        status, told, error, _ = end
        if status == 3 and not told and error == "mfpx: out of memory\n":
            return "no memory"
        if status == 1 and not told and error.startswith("mfpx: line ") and error.endswith(" fault 51\n"):
            return self.judged_line(refused, int(error.split()[2]))
        if status != 0 or error or not one_list_explains(self.lines, told):
            return None
        if told == self.right:
            return "right"
        if (0, told) in self.down:
            return "began down"
        return self.judged_stop(told)

    def judged_line(self, refused, number):
        """The same of a run that ended at this line, as its frame was never sent."""
        if self.lines[number - 1].split()[0] not in ("deliver", "drop"):
            return None
        # What came before that line is printed once the run goes on behind it.
        job = Job(self.runs, with_flushes(self.lines, number), self.words)
        kind = job.judged(refused, self.runs.run(job.lines, self.words, refused))
        return "no frame" if kind in ("stopped", "began down") else None

    def judged_stop(self, told):
        """The same of a transcript in which one node has to tell the refusal, and the rest has to follow from it."""
        at = [i for i, line in enumerate(told) if line.startswith(("stop ", "refuse ")) and line.endswith(" 47")]
        if len(at) != 1 or shared(told, self.right) < at[0] or not is_explained(self.lines, told, answers(self.right)):
            return None
        return "stopped" if told[at[0]].startswith("stop ") else "refused"


def try_each(runs, name, lines, words):
    """Refuses each request in turn. How many runs ended in which way, and those that ended badly."""
    job = Job(runs, lines, words)
    if job.status != 0 or job.error or not is_explained(lines, job.right, answers(job.right)):
        sys.exit("%s does not run with ample memory: %s" % (name, job.error))
    counts, bad, refused = dict.fromkeys(ENDS, 0), [], 1
    while True:
        end = runs.run(lines, words, refused)
        if not end[3]:
            return counts, bad
        kind = job.judged(refused, end)
        if kind is None:
            bad.append((refused, end))
        else:
            counts[kind] += 1
        refused += 1


def check_each(runs, name, document, words):
    """The same of a check of a document, which may be faulty."""
    right = runs.run_bytes(document, words)
    if right[0] not in (0, 1):
        sys.exit("%s is not checked with ample memory: %s" % (name, right[2]))
    counts, bad, refused = dict.fromkeys(ENDS, 0), [], 1
    while True:
        end = runs.run_bytes(document, words, refused)
        if not end[3]:
            return counts, bad
        if end[:3] == right[:3]:
            counts["right"] += 1
        elif end[:3] == (3, b"", b"mfpx: out of memory\n"):
            counts["no memory"] += 1
        else:
            bad.append((refused, end))
        refused += 1


def report(title, words, counts, bad):
    """Prints a row, and the runs that ended badly. How many runs there were, and how many of them ended badly."""
    print("%-24s %-14s %8d  %s" % (title, " ".join(words), sum(counts.values()) + len(bad),
                                   "  ".join("%*d" % (len(e), counts[e]) for e in ENDS)))
    for refused, end in bad:
        print("  request %d: status %d, %r, %r" % (refused, end[0], end[1], end[2]))
    return sum(counts.values()) + len(bad), len(bad)


def inputs(suffix, result, names):
    """The inputs that are run, each with its name and path: examples with such a result beside them, all or those among the names."""
    found = [os.path.splitext(path)[0] + suffix for path in sorted(glob.glob(os.path.join(EXAMPLES, "*" + result)))]
    found = [path for path in found if "all" in names or title_of(path) in names] + [name for name in names if name.endswith(suffix)]
    return [(title_of(path), path) for path in found]


def title_of(path):
    return os.path.splitext(os.path.basename(path))[0]


def main():
    program = sys.argv[1] if len(sys.argv) > 1 else os.path.join(HERE, "..", "crates", "mfpx", "out", "mfpx")
    rows = []
    with tempfile.TemporaryDirectory() as folder:
        library = os.path.join(folder, "refuse_memory.so")
        subprocess.run(["gcc", "-O2", "-Wall", "-shared", "-fPIC", os.path.join(HERE, "refuse_memory.c"), "-o", library, "-ldl"],
                       check=True)
        runs = Runs(os.path.abspath(program), library)
        print("%-24s %-14s %8s  %s" % ("example", "words", "requests", "  ".join(ENDS)))
        names = sys.argv[2:] or NAMES
        for name, path in inputs(".schedule", ".transcript", names):
            with open(path) as file:
                lines = file.read().splitlines()
            for title, tried, words in [
                (name, lines, []),
                (name, lines, ["replay", "FILE"]),
                (name + " +", lines + afterwards(lines), []),
            ] + [("%s M=%d" % (name, node), with_outs(runs, lines + afterwards(lines), node), []) for node in range(nodes_of(lines))]:
                rows.append(report(title, words, *try_each(runs, title, tried, words)))
        for name, path in inputs(".json", ".json", names):
            with open(path, "rb") as file:
                document = file.read()
            for words in ["check", "-"], ["check", "FILE"]:
                rows.append(report(name, words, *check_each(runs, name, document, words)))
    print("`+`: followed by a restart and a tick of each node, a flush, and a query of each; `M=`: with checkpoints and trims of M besides")
    tried, wrong = (sum(row[i] for row in rows) for i in range(2))
    print("%d requests refused, %d runs wrong" % (tried, wrong))
    sys.exit(1 if wrong else 0)


if __name__ == "__main__":
    main()

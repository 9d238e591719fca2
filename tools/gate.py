#!/usr/bin/env python3
"""Runs the gate and says what it did: what each task took of the processors, how busy these were, and how fast the machine was meanwhile.

    tools/gate.py [LOG]      from the repository's top; the gate's own lines go to LOG, or are dropped

Twice a second it looks which checks there are, and how many seconds of a processor each has used; a check that is over before it is
seen is left out. Once a minute it times two fixed loops of its own, one of sums and one of reads all over 64 MB: a machine whose other
work is not ours can be slower by half from one minute to the next, which the seconds of a check alone don't tell. Where the machine is a
guest, its host says how much of the processors' time others had (`steal` of /proc/stat). Only a run for which nothing is kept proves all
from scratch; the gate's last lines say what was kept. The table is followed by the slowest mutants, each with the crate's name and its own.
"""
import array
import os
import subprocess
import sys
import time

TICKS = os.sysconf("SC_CLK_TCK")
KINDS = ("proof", "tests", "before", "mutant", "after", "compiling")
HEADS = ("Proof", "Tests", "Before its mutants", "Mutants", "After them", "Compiling")


def words_of(pid):
    try:
        with open(f"/proc/{pid}/cmdline", "rb") as it:
            return it.read().decode(errors="replace").split("\0")
    except OSError:
        return []


def task_of(words):
    """Returns the crate, the kind of task, and what tells two tasks of one kind apart; None for what is no check."""
    name = os.path.basename(words[0]) if words else ""
    if name.startswith("clang"):
        return "clang", "compiling", ""
    if name != "rattle" or "--crate-name" not in words:
        return None
    crate = words[words.index("--crate-name") + 1]
    over = words[words.index("--incremental") + 1] if "--incremental" in words else ""
    if "--test" in words:
        return crate, "tests", ""
    if over:
        return crate, "before" if over.endswith("/seed") else "mutant", over
    if words[1] == "build" and "--backend" in words:
        return crate, "compiling", ""
    # the only mutant of a crate is tried over nothing
    is_alone = words[1] == "check" and "-o" not in words and "--empty-contracts" not in words
    return crate, "mutant" if is_alone else "proof", ""


def used(pid):
    """Returns when the process started, and the seconds that it has used."""
    with open(f"/proc/{pid}/stat") as it:
        fields = it.read().rpartition(")")[2].split()
    return fields[19], (int(fields[11]) + int(fields[12])) / TICKS


def look(seen):
    """Notes what each check has used by now."""
    for pid in filter(str.isdigit, os.listdir("/proc")):
        try:
            start, seconds = used(pid)
        except (OSError, ValueError, IndexError):
            continue
        if (pid, start) not in seen or seen[pid, start][0] is None and seconds < 1:
            seen[pid, start] = [task_of(words_of(pid)), seconds, time.time()]
        seen[pid, start][1] = seconds


def free():
    """Returns the memory that is free, in GB."""
    with open("/proc/meminfo") as it:
        return next(int(line.split()[1]) for line in it if line.startswith("MemAvailable:")) / 1e6


def busy():
    """Returns the time that the processors were busy, the part of it in which the host ran something else instead, and all."""
    with open("/proc/stat") as it:
        fields = [int(word) for word in it.readline().split()[1:9]]
    return sum(fields) - fields[3] - fields[4], fields[7], sum(fields)


def loops(places):
    """Returns the seconds of a processor that the two loops take."""
    begin = time.process_time()
    sum(range(5_000_000))
    between = time.process_time()
    at = total = 0
    for _ in range(200_000):
        at = (at * 1664525 + 1013904223) % len(places)
        total += places[at]
    return between - begin, time.process_time() - between


def by_crate(seen):
    """Returns for each crate the seconds of each kind; of mutants those of each."""
    crates = {}
    for task, seconds, first in sorted((it for it in seen.values() if it[0]), key=lambda it: it[2]):
        crate, kind, over = task
        kinds = crates.setdefault(crate, {it: {} for it in KINDS})
        if kind == "before" and kinds["mutant"]:
            kind = "after"
        kinds[kind][over] = kinds[kind].get(over, 0) + seconds
    return crates


def slowest(crates, count=20):
    """Returns the seconds of the slowest mutants, their crates and their names; what is over no seed is alone in its crate."""
    found = []
    for crate, kinds in crates.items():
        folder = f"crates/{crate}/must-fail"
        names = sorted(it for it in os.listdir(folder) if it.endswith(".edit")) if os.path.isdir(folder) else []
        for over, seconds in kinds["mutant"].items():
            number = os.path.basename(over) or "0"
            # (a check of somebody else's has no number)
            if number.isdigit() and int(number) < len(names):
                found.append((seconds, crate, names[int(number)].removesuffix(".edit")))
    return sorted(found, reverse=True)[:count]


def cell(kind, tasks):
    if not tasks:
        return ""
    if kind != "mutant":
        return f"{sum(tasks.values()):.0f}"
    return f"{len(tasks)}: {sum(tasks.values()):.0f}, each {min(tasks.values()):.0f} to {max(tasks.values()):.0f}"


def main(log):
    seen, speeds, places = {}, [], array.array("q", range(8_000_000))
    (was_busy, was_stolen, was), begin, last, least = busy(), time.time(), 0, free()
    with open(log, "wb") as it:
        gate = subprocess.Popen(["bash", ".ci/run"], stdin=subprocess.DEVNULL, stdout=it, stderr=subprocess.STDOUT)
        while gate.poll() is None:
            look(seen)
            least = min(least, free())
            if time.time() - last > 60:
                last = time.time()
                speeds.append(loops(places))
            time.sleep(0.5)
    (is_busy, stolen, now), crates = busy(), by_crate(seen)
    print(f"| Crate | {' | '.join(HEADS)} |\n{'|---' * (len(HEADS) + 1)}|")
    for crate, kinds in sorted(crates.items(), key=lambda it: -sum(sum(tasks.values()) for tasks in it[1].values())):
        print(f"| `{crate}` | {' | '.join(cell(kind, kinds[kind]) for kind in KINDS)} |")
    sums = {kind: sum(sum(kinds[kind].values()) for kinds in crates.values()) for kind in KINDS}
    print(f"\n{sum(sums.values()):.0f} seconds: " + ", ".join(f"{head} {sums[kind]:.0f}" for kind, head in zip(KINDS, HEADS)))
    share, lost = ((now_is - it) / max(now - was, 1) for now_is, it in ((is_busy, was_busy), (stolen, was_stolen)))
    minutes = (time.time() - begin) / 60
    print(f"{minutes:.0f} minutes, the processors busy for {100 * share:.0f} %, of which the host took {100 * lost:.1f} %")
    print(f"never less than {least:.1f} GB free")
    for name, of in (("sums", 0), ("reads", 1)):
        taken = [it[of] for it in speeds]
        print(f"the loop of {name}: {min(taken):.3f} to {max(taken):.3f} seconds, {sum(taken) / len(taken):.3f} in the mean")
    for seconds, crate, name in slowest(crates):
        print(f"{seconds:.0f} seconds: {crate} {name}")
    return gate.returncode


if __name__ == "__main__":
    if len(sys.argv) > 2 or sys.argv[1:2] == ["--help"]:
        sys.exit(__doc__)
    sys.exit(main(*(sys.argv[1:] or [os.devnull])))

#!/usr/bin/env python3
"""Tries the checker `one_log.py`: a right run is explained, and one that was changed in one place is not.

    check/one_log_selftest.py FOLDER.. [--longest N] [--seed N] [--changes N]

Each FOLDER has right runs: NAME.schedule with NAME.transcript, or NAME with NAME.stdout and NAME.status 0. Of each run of at
most N lines of transcript (200) each line is changed in turn: a slot, a command, a reply's request or code, an answer's
position or text, the position of a restore, a code of a refusal or a stop, the end of a round, a node; the line is left out,
told twice, or moved behind the next one. At most --changes of these are tried for a line (all), drawn from the seed.

A changed run may be right all the same. It then has to have one of these reasons, which are counted:

    another list       a slot has another command than before, of which nothing else tells; or one more or less is told
    another operation  the list has a request with another of the operations that were submitted under its name
    another node       the nodes that learnt a slot or were restored are others, and nothing rests on who
    another order      the lines are the same ones, in an order that other deliveries have
    another wait       a reply is left out, and it is open whether the request came to the node before its slot was learnt there
    another end        a round by hand ended with another ballot, or with another slot, which an earlier delivery may have taught
    another put        a fault was armed, and it is open which delivery makes the put that fails, so since when a node is down

A change that passes for none of these reasons is printed, and the script ends with 1.
"""

import argparse
import collections
import glob
import os
import random
import sys

import one_log
import reference_parser

FOUND = "found"
REASONS = ("another list", "another operation", "another node", "another wait", "another order", "another end", "another put")
CODES = {"reply": (0, 21, 22, 23, 24, 31, 32), "refuse": (41, 42, 43, 44, 45, 47), "stop": (46, 47, 48)}


def runs(folder, longest):
    """The right runs of a folder: name, schedule, lines of the transcript."""
    pairs = [(path[:-len(".transcript")] + ".schedule", path) for path in glob.glob(os.path.join(folder, "*.transcript"))]
    for path in glob.glob(os.path.join(folder, "*.stdout")):
        case = path[:-len(".stdout")]
        with open(case + ".status") as file:
            if file.read().strip() == "0":
                pairs.append((case, path))
    for schedule, transcript in sorted(pairs):
        with open(schedule, "rb") as file:
            data = file.read()
        with open(transcript) as file:
            lines = file.read().splitlines()
        if len(lines) <= longest and data.startswith(b"nodes "):
            yield os.path.basename(schedule), data, lines


def other_texts(text):
    """An answer's text with each of its words changed: a number by one, yes and no into one another, else by a letter."""
    words = text.split(" ")
    for i, word in enumerate(words):
        if i == 0 and word != "absent":
            changed = ["absent"]
        elif word in ("yes", "no"):
            changed = ["no" if word == "yes" else "yes", "none"]
        elif word.lstrip("-").isdigit():
            changed = [str(int(word) + 1), str(int(word) - 1)]
        else:
            changed = [word[:-1], word + "0"]
        for other in changed:
            yield " ".join(words[:i] + [other] + words[i + 1:])


def other_lines(line, requests, nodes):
    """The same line with one entry changed."""
    told = one_log.told_line(line)
    others = [told._replace(node=node) for node in range(nodes) if node != told.node]
    if told.kind in ("learn", "answer", "restore"):
        others += [told._replace(number=number) for number in (told.number + 1, told.number - 1, 65536) if number >= 0]
    if told.kind == "learn":
        others += [told._replace(text=text) for text in ["noop", "255:18446744073709551615"] + requests if text != told.text]
    if told.kind == "reply":
        others += [told._replace(text=text) for text in requests if text != told.text]
    if told.kind in CODES:
        others += [told._replace(number=code) for code in CODES[told.kind] if code != told.number]
    if told.kind == "answer":
        others += [told._replace(text=text) for text in other_texts(told.text)]
    if told.kind == "round":
        ends = ["noquorum", "down 0", "stopped 0", "refused 42", "low 1.0", "low 2.1", "decided 0", "decided 1"]
        others += [told._replace(text=text) for text in ends if text != told.text]
    return [spelled(other) for other in others]


def spelled(told):
    """A transcript's line."""
    words = {"learn": (told.number, told.text), "answer": (told.number, told.text), "reply": (told.text, told.number),
             "round": (told.text,)}.get(told.kind, (told.number,))
    return " ".join(str(word) for word in (told.kind, told.node, *words))


def changes(lines, requests, nodes):
    """Every change of a transcript in one place, by line: the lines that come of it."""
    for i, line in enumerate(lines):
        changed = [lines[:i] + [other] + lines[i + 1:] for other in other_lines(line, requests, nodes)]
        changed += [lines[:i] + lines[i + 1:], lines[:i] + [line] + lines[i:]]
        if i + 1 < len(lines) and lines[i + 1] != line:
            changed.append(lines[:i] + [lines[i + 1], line] + lines[i + 2:])
        yield changed


def explanation(schedule, lines):
    """What explains the run, or None."""
    try:
        return one_log.explain(schedule, "".join(line + "\n" for line in lines))
    except one_log.Unexplained:
        return None


def learnt(lines):
    """The slots and commands that were learnt, whoever did."""
    told = map(one_log.told_line, lines)
    return {(line.number, line.text) for line in told if line.kind == "learn"}


def judged(schedule, lines, changed):
    """`found`, one of the reasons, or None where a change passes for none of them."""
    other = explanation(schedule, changed)
    if other is None:
        return FOUND
    if learnt(lines) != learnt(changed):
        return "another list"
    if sorted(lines) == sorted(changed):
        return "another order"
    kinds = {line.split(" ")[0] for line in changed_lines(lines, changed)}
    if kinds == {"reply"} and len(changed) < len(lines):
        return "another wait"
    if kinds <= {"reply", "answer"}:
        return "another operation" if other.operations != explanation(schedule, lines).operations else None
    reasons = {"learn": "another node", "restore": "another node", "round": "another end", "stop": "another put", "refuse": "another put"}
    return reasons[kinds.pop()] if len(kinds) == 1 else None


def changed_lines(lines, changed):
    """The lines of which there are more in one of the two."""
    before, after = collections.Counter(lines), collections.Counter(changed)
    return sorted((before - after) + (after - before))


def try_run(name, schedule, lines, draw, most, counts):
    """Counts what comes of the changes of a run. Whether each was found, or passes for a reason."""
    nodes, events = reference_parser.read(schedule)
    requests = sorted({event.request for event in events if event.kind == "submit"})
    if explanation(schedule, lines) is None:
        print("%s: the right run is not explained" % name)
        return False
    right = True
    for i, changed in enumerate(changes(lines, requests, nodes), 1):
        for other in changed if most is None else draw.sample(changed, min(most, len(changed))):
            end = judged(schedule, lines, other)
            if end is None:
                right = False
                print("%s: a change of line %d is not found: %s" % (name, i, changed_lines(lines, other)))
            else:
                counts[end] += 1
    return right


def main():
    parser = argparse.ArgumentParser(description=__doc__, formatter_class=argparse.RawDescriptionHelpFormatter)
    parser.add_argument("folders", nargs="+", metavar="FOLDER")
    parser.add_argument("--longest", type=int, default=200, metavar="N", help="lines of the longest transcript")
    parser.add_argument("--changes", type=int, metavar="N", help="how many changes of a line are tried")
    parser.add_argument("--seed", type=int, default=1, metavar="N")
    words = parser.parse_args()
    draw, counts, right, tried = random.Random(words.seed), dict.fromkeys((FOUND,) + REASONS, 0), True, 0
    for folder in words.folders:
        for name, schedule, lines in runs(folder, words.longest):
            right &= try_run(name, schedule, lines, draw, words.changes, counts)
            tried += 1
    print("%d runs: %s" % (tried, ", ".join("%d %s" % (counts[end], end) for end in counts)))
    sys.exit(0 if right else 1)


if __name__ == "__main__":
    main()

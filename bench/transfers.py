#!/usr/bin/env python3
"""What it takes to bring back a node that missed what the others have forgotten: a large snapshot, part by part, from two nodes.

    bench/transfers.py [PROGRAM] [--appends N] [--times K]

PROGRAM is crates/mfpx/out/mfpx, which `rt run` in crates/mfpx builds. 256 features of 512 points each get N more points (60,000), which
makes a snapshot text of 4.6 MB; a log of 65,536 slots can't make one that is much longer. Nodes 0 and 1 write it as a checkpoint, trim and
restart. Node 2, which was down, fetches it K times (20), with a restart between: each second part is asked for by a tick, so that both
others serve. Processor time, best of five:

    transfer    all parts but the last, each asked for, sent, taken and kept: the difference of K transfers and none
    restore     the last part, the parts put together, and the machine read from them: the difference of K transfers with it and without
    copy        each of the frames copied once, into memory of its own

A transfer is to take at most six times the copy.
"""

import argparse
import os
import sys
import time

from checkpoints import TRIES, datetime, of_all, run, seconds

HERE = os.path.dirname(os.path.abspath(__file__))
FEATURES, POINTS, BATCH = 256, 512, 50
PART, HEAD = 32_768, 20


def feature(number):
    return "bus-%03d" % number


def put(number):
    """A feature at many instants, as the words of a line."""
    times = ",".join('"%s"' % datetime(second) for second in range(POINTS))
    places = ",".join("[%d,%d]" % (second, number) for second in range(POINTS))
    return ('put {"type":"Feature","id":"%s","temporalGeometry":{"type":"MovingPoint","datetimes":[%s],"coordinates":[%s],'
            '"interpolation":"Linear"}}' % (feature(number), times, places))


def carried(appends):
    """The lines by which nodes 0 and 1 learn all of it and forget it, while node 2 is down; and how many frames are sent."""
    lines = ["fault 2 read", "restart 2"]
    slots = FEATURES + appends
    for slot in range(slots):
        number, second = slot % FEATURES, POINTS + slot // FEATURES - 1
        added = put(number) if slot < FEATURES else "append %s %s 0 0" % (feature(number), datetime(second))
        lines.append("submit 0 7 %d %s" % (slot + 1, added))
        if slot + 1 == BATCH:
            lines.append("timeout 0")
        if (slot + 1) % BATCH == 0 or slot + 1 == slots:
            lines.append("flush")
    of_two = [line for line in of_all("checkpoint", "trim", "restart") if not line.endswith(" 2")]
    # 3 prepares, 2 promises; for each slot 3 accepts, and 3 votes each of two nodes.
    return lines + of_two, 5 + 9 * slots


def text_bytes(appends):
    """How long the snapshot text is, with the counts of features and clients and the last reply to one client."""
    return 4 + 10 + FEATURES * (1 + len(feature(0)) + 3) + 24 * (FEATURES * POINTS + appends)


def transfer(frame, parts, with_last):
    """The lines of a transfer that begins with this frame, perhaps without its last part; and the frame behind it."""
    lines = ["restart 2", "tick 2", "deliver %d" % frame, "deliver %d" % (frame + 2)]
    # The last question that was sent to a node.
    asked, frame = frame + 3, frame + 5
    for part in range(parts if with_last else parts - 1):
        if part % 2 == 1:
            # Who didn't serve the part before is asked: first node 1, then node 0.
            lines.append("tick 2")
            asked, frame = frame + (part // 2 + 1) % 2, frame + 2
        lines += ["deliver %d" % asked, "deliver %d" % frame]
        asked, frame = frame + 1, frame + 2
    return lines, frame


def transfers(begin, frame, parts, times, with_last=False):
    """The lines of so many transfers behind others."""
    lines = list(begin)
    for _ in range(times):
        more, frame = transfer(frame, parts, with_last)
        lines += more
    return lines


def copying(size, parts, times):
    """The processor time of copying the frames of a text so many times."""
    frames = [bytearray(HEAD + min(PART, size - PART * part)) for part in range(parts)]
    least = None
    for _ in range(TRIES):
        kept, begun = [], time.process_time()
        for _ in range(times):
            kept += [bytes(frame) for frame in frames]
        taken = time.process_time() - begun
        least = taken if least is None else min(least, taken)
    return least


def main():
    parser = argparse.ArgumentParser(description=__doc__, formatter_class=argparse.RawDescriptionHelpFormatter)
    parser.add_argument("program", nargs="?", default=os.path.join(HERE, "..", "crates", "mfpx", "out", "mfpx"))
    parser.add_argument("--appends", type=int, default=60_000, metavar="N")
    parser.add_argument("--times", type=int, default=20, metavar="K")
    words = parser.parse_args()
    program, times = os.path.abspath(words.program), words.times
    begin, frame = carried(words.appends)
    size = text_bytes(words.appends)
    parts = (size + PART - 1) // PART
    done, _ = run(program, transfers(begin, frame, parts, 1, with_last=True) + ["query 0 count", "query 2 count"])
    told = done.stdout.splitlines()[-3:]
    position = FEATURES + words.appends
    if told != ["restore 2 %d" % position] + ["answer %d %d count %d" % (node, position, FEATURES) for node in (0, 2)]:
        sys.exit("node 2 is not restored: %s" % told)
    least = {key: min(seconds(program, transfers(begin, frame, parts, *key)) for _ in range(TRIES)) for key in ((0, False), (times, False),
                                                                                                         (times, True))}
    taken = (least[times, False] - least[0, False]) / times
    restored = (least[times, True] - least[times, False]) / times
    copied = copying(size, parts, times) / times
    print("a text of %d bytes, %d parts, %d transfers" % (size, parts, times))
    for name, figure in (("transfer", taken), ("restore", restored), ("copy", copied)):
        print("  %-10s %9.3f ms" % (name, 1000 * figure))
    print("  ratio %.2f" % (taken / copied))


if __name__ == "__main__":
    main()

#!/usr/bin/env python3
"""Times the roles of a node, which hold little or much by then: calls a second.

    bench/roles.py [PROGRAM]         PROGRAM is crates/conformance/out/conformance; where none is given, `rt run` in
                                     crates/conformance proves and builds it first

`tellings` tells a learner of three nodes that has learnt so many slots: every other time of a slot that it has still to
learn, by the node that told of it before, and else of one that it has learnt, the third node's vote that comes late.
`promises` has an acceptor that holds so many votes promise ever greater ballots, over records in memory, from one slot
with a vote or another on. `proposals` has a leader at which so many requests wait propose, learn and execute a request
and take in another one, with a new leader after 1,024 rounds. `overlapping` asks a time index of so many entries for
another ten seconds each round.

How fast it fills is printed as well: the tellings by which the learner learns its slots, two for each, and the votes that
the acceptor casts.
"""

import timing

SIZES = (
    ("tellings", "slots", (1, 1000, 60000)),
    ("promises", "votes", (1, 1000, 60000)),
    ("proposals", "waiting", (1, 64)),
    ("overlapping", "entries", (1, 256)),
)

# A word, and how many calls bring one more slot or vote.
FILLED = (("tellings", 2), ("promises", 1))


def filled(path, word, calls, few, many):
    """Calls a second while what is held grows from few to many."""
    taken = timing.best(path, [word, str(many)], 0) - timing.best(path, [word, str(few)], 0)
    return calls * (many - few) / max(taken, 1e-9)


def main():
    path = timing.program()
    for word, what, sizes in SIZES:
        timing.table(path, (word,), sizes, what)
    for word, calls in FILLED:
        rates = [timing.figure(filled(path, word, calls, few, few + 20000)) for few in (10000, 40000)]
        print("%-16s from 10,000 to 30,000 %12s, from 40,000 to 60,000 %12s" % (word, *rates))


if __name__ == "__main__":
    main()

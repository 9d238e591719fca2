#!/usr/bin/env python3
"""Times operations and queries of a database of 256 features, each of 64 or of 1,024 points: calls a second.

    bench/db_queries.py [PROGRAM]         PROGRAM is crates/conformance/out/conformance; where none is given, `rt run` in
                                     crates/conformance proves and builds it first

`store_put` makes an operation that puts a known feature anew, and carries it out; `store_append` appends a point (at
1,024 points the feature is full, which is told), and every 256th round puts another feature anew; `store_remove` removes
a feature in one round and puts it again in the next. A query asks another feature each round.
"""

import timing

WORDS = (
    "store_put",
    "store_append",
    "store_remove",
    "store_at",
    "store_cut",
    "store_cut_whole",
    "store_ever",
    "store_ever_whole",
    "store_always",
    "store_within",
    "store_get",
    "store_count",
)


def main():
    timing.table(timing.program(), WORDS, (64, 1024))


if __name__ == "__main__":
    main()

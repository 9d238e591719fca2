#!/usr/bin/env python3
"""Times the check of documents of 2, 64 and 1,024 instants, many in one process: documents a second.

    bench/documents.py [PROGRAM]     PROGRAM is crates/conformance/out/conformance; where none is given, `rt run` in
                                     crates/conformance proves and builds it first

`check` reads a canonical document and writes it again; `write` only writes it.
"""

import timing


def main():
    timing.table(timing.program(), ("check", "write"), (2, 64, 1024))


if __name__ == "__main__":
    main()

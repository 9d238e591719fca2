#!/usr/bin/env python3
"""Times the machine that executes each request once: requests a second.

    bench/sessions.py [PROGRAM]      PROGRAM is crates/conformance/out/conformance; where none is given, `rt run` in
                                     crates/conformance proves and builds it first

Eight clients ask in turn, each under rising numbers, and every sixteenth turn asks the client's last request once more.
A client puts its feature of so many points, adds a point under each of the next 254 numbers, removes it, and begins
again. Each request is made anew and told one reply.
"""

import timing


def main():
    timing.table(timing.program(), ("execute",), (1, 64, 512))


if __name__ == "__main__":
    main()

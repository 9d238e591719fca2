#!/usr/bin/env python3
"""Lists the goals that cost most to prove, by the checker's own steps, which no load of the machine changes.

    tools/proof_cost.py CRATE [COUNT]     from the repository's top, once `rt check` has proved the crate: its work lies in crates/CRATE/out

A line has the steps of one goal in thousands, the function's path, the goal's name, and the tactics that took most of them. Three million
steps are about a second. What a function's way through its code costs is not among them, though it is most of all.
"""
import json
import os
import sys

BEGIN = '[{"aux"'


def declarations(path):
    """Yields each declaration that a file of checked work holds."""
    with open(path, encoding="utf-8", errors="replace") as it:
        text = it.read()
    decoder, at = json.JSONDecoder(strict=False), text.find(BEGIN)
    while at >= 0:
        try:
            found, at = decoder.raw_decode(text, at)
        except ValueError:
            found, at = [], at + 1
        yield from found
        at = text.find(BEGIN, at)


def goals(folder, crate):
    """Yields the steps of each goal of the crate's proofs, the module that it stands in, its name, and its tactics with theirs."""
    head, tail = f"Rattle-{crate}-proofs.", ".decls.oantt"
    for at, _, names in os.walk(folder):
        for name in names:
            if name.startswith(head) and name.endswith(tail):
                for found in declarations(f"{at}/{name}"):
                    if found.get("spent"):
                        tactics = [(it[0], int(it[2])) for it in found.get("calls", [])]
                        yield found["spent"][0], name[len(head) : -len(tail)], found["name"], tactics


def main(crate, count="30"):
    found = sorted(goals(f"crates/{crate}/out/incremental", crate), reverse=True)
    print(f"{sum(it[0] for it in found) // 1000:8} thousand steps in {len(found)} goals")
    for steps, module, name, tactics in found[: int(count)]:
        dear = " ".join(f"{tactic} {own // 1000}" for tactic, own in sorted(tactics, key=lambda it: -it[1])[:3] if own >= 1000)
        print(f"{steps // 1000:8} {module} {name}: {dear}")


if __name__ == "__main__":
    if len(sys.argv) not in (2, 3):
        sys.exit(__doc__)
    main(*sys.argv[1:])

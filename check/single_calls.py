#!/usr/bin/env python3
"""Runs tests of single calls again and again, each time with another request for memory refused.

    check/single_calls.py TESTS [NAME..]

TESTS is crates/tests/out/tests_tests, which `rt test` builds there; `tools/unproved.py crates/tests TESTS --test` builds one without
proofs. The NAMEs are of functions in crates/tests/src/memory.rt; without any, all of them are run.

Such a test makes one call. Where that is refused memory, what was there has to stand, and the same call again has to have the
answer that it has undisturbed. The first run of a test refuses the first request, the second the second, and so on until a run
meets no refusal. A run ends well in one of these ways:

    right         status 0: the call was refused and was right the second time, or nothing was refused that it needs
    no memory     status 101: what the test prepares, or reads afterwards, was refused, and said so

Every other end is printed, and so is a test in which no call was refused; the script then ends with 1. It needs gcc, for a malloc
that it preloads.
"""

import os
import re
import subprocess
import sys
import tempfile

HERE = os.path.dirname(os.path.abspath(__file__))
MODULE = "memory::"
# How out of memory is told, as an error of a test.
NO_MEMORY = re.compile(r"error: (AllocError|AllocFailed \{ \.\. \}|Memory)\nthe test failed: .*\n")


def names_of(tests):
    """The names of the tests of single calls."""
    listed = subprocess.run([tests, "--list"], capture_output=True, text=True, check=True).stdout
    return [line[: -len(": test")] for line in listed.splitlines() if line.startswith(MODULE)]


def run(tests, name, library, refused):
    """Status and standard error of a test with a request refused, and whether it came to that."""
    from_note, to_note = os.pipe()
    environment = {"LD_PRELOAD": library, "FAIL_AT": str(refused), "FAIL_NOTE": str(to_note)}
    done = subprocess.run([tests, name], capture_output=True, env=environment, pass_fds=[to_note], timeout=60)
    os.close(to_note)
    met = os.read(from_note, 1) != b""
    os.close(from_note)
    return done.returncode, done.stderr.decode(), met


def refuse_each(tests, name, library):
    """How many runs were right and how many had no memory, and the runs that were neither."""
    right, without, wrong, refused = 0, 0, [], 1
    while True:
        status, error, met = run(tests, name, library, refused)
        if status == 0:
            right += met
        elif met and NO_MEMORY.fullmatch(error):
            without += 1
        else:
            wrong.append((refused, status, error))
        if not met:
            return right, without, wrong
        refused += 1


def main():
    if len(sys.argv) < 2:
        sys.exit(__doc__)
    tests = os.path.abspath(sys.argv[1])
    names = [MODULE + name for name in sys.argv[2:]] or names_of(tests)
    bad = 0
    with tempfile.TemporaryDirectory() as folder:
        library = os.path.join(folder, "refuse_memory.so")
        source = os.path.join(HERE, "refuse_memory.c")
        subprocess.run(["gcc", "-O2", "-Wall", "-shared", "-fPIC", source, "-o", library, "-ldl"], check=True)
        print("%-28s%8s%12s%8s" % ("test", "right", "no memory", "wrong"))
        for name in names:
            right, without, wrong = refuse_each(tests, name, library)
            print("%-28s%8d%12d%8d" % (name, right, without, len(wrong)), flush=True)
            for refused, status, error in wrong:
                print("  request %d: status %d, %r" % (refused, status, error))
            if right == 0:
                print("  no call was refused")
            bad += len(wrong) + (right == 0)
    print("%d tests, %d wrong" % (len(names), bad))
    sys.exit(1 if bad or not names else 0)


if __name__ == "__main__":
    main()

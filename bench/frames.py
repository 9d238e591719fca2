#!/usr/bin/env python3
"""Times frames, spelled and read, and counts the requests for memory that one of each kind takes.

    bench/frames.py [PROGRAM]        PROGRAM is crates/conformance/out/conformance; where none is given, `rt run` in
                                     crates/conformance proves and builds it first

A promise tells four votes, each for a put; a put has 512 instants. The requests for memory of 1,000 frames are taken from
those of 2,000, so that what the program takes besides doesn't count. It needs gcc, for a malloc that it preloads.
"""

import os
import subprocess
import tempfile

import timing

HERE = os.path.dirname(os.path.abspath(__file__))
MESSAGES = ("prepare", "accepted_append", "accept_put", "promise")


def requests(program, library, word, frames):
    """How many times a run asks for memory."""
    from_note, to_note = os.pipe()
    environment = {"LD_PRELOAD": library, "COUNT_NOTE": str(to_note)}
    subprocess.run([program, word, str(frames)], env=environment, pass_fds=[to_note], check=True,
                   stdout=subprocess.DEVNULL)
    os.close(to_note)
    with os.fdopen(from_note) as note:
        return int(note.read())


def main():
    program = os.path.abspath(timing.program())
    print("frames a second of processor time, best of %d, on %d cores; requests for memory of one frame"
          % (timing.TRIES, os.cpu_count()))
    with tempfile.TemporaryDirectory() as folder:
        library = os.path.join(folder, "malloccount.so")
        subprocess.run(["gcc", "-O2", "-Wall", "-shared", "-fPIC", os.path.join(HERE, "malloccount.c"), "-o", library,
                        "-ldl"], check=True)
        for message in MESSAGES:
            for way in ("encode", "decode"):
                word = "frame_%s_%s" % (way, message)
                asked = requests(program, library, word, 2000) - requests(program, library, word, 1000)
                speed = timing.figure(timing.calls_a_second(program, [word]))
                print("%-30s%12s%8.3f" % (word, speed, asked / 1000), flush=True)


if __name__ == "__main__":
    main()

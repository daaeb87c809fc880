#!/usr/bin/env python3
"""Refuses each allocation of a run in turn, for each word of the program: the run has to answer 7, say so, write nothing to standard output
and read nothing from its input, or to be as ever. That it may be for one allocation alone: the kit's `collect`, which gathers the words of
the command line, asks for all its room at once, and where that is refused for less.

usage: allocations.py PROGRAM LIBRARY

LIBRARY is refusing_malloc.c, compiled. What this tries is the program of the build that stands there, with the C library of this machine:
all that it allocates goes through malloc and realloc. A C program that takes memory once it has read some was told by it.
"""
import os
import subprocess
import sys
import tempfile

from hostile_inputs import BACKUP, INPUTS, TWO_KEYS
from line_parts import FILES

OUT_OF_MEMORY, TEXT = 7, b"out of memory\n"
# More than any run allocates, and how many of them it may do without.
MOST, SPARED = 1_000, 1
PARTS = ("image", "digest", "noise")
# The words of each run, and its input, which comes from a file.
RUNS = [
    (("serve", *PARTS), "frames"),
    (("operate", *PARTS), "lines"),
    (("session", "7", "9", *PARTS), "nothing"),
    (("backup", "keys", *PARTS), "kept"),
    (("restore", "keys", "backup", *PARTS), "restored"),
    (("vectors",), "vectors"),
    (("check",), "transcript"),
    (("digest", "image"), "nothing"),
    (("frob",), "nothing"),
]


class Wrong(Exception):
    pass


class Runner:
    def __init__(self, program, library, room):
        self.program, self.library, self.room = os.path.abspath(program), os.path.abspath(library), room
        for name, content in {**{name: FILES[name] for name in PARTS}, "keys": TWO_KEYS, "backup": BACKUP, **INPUTS}.items():
            with open(os.path.join(room, name), "wb") as file:
                file.write(content)

    def run(self, words, input, refused):
        """The status, what is written to standard output and standard error, where reading stands, and how many allocations there were."""
        count = os.path.join(self.room, "allocations")
        around = {"LD_PRELOAD": self.library, "REFUSED": str(refused), "COUNTED": count}
        with open(os.path.join(self.room, input), "rb") as stream:
            ran = subprocess.run([self.program, *words], cwd=self.room, env=around, stdin=stream, capture_output=True, timeout=60)
            place = os.lseek(stream.fileno(), 0, os.SEEK_CUR)
        with open(count, encoding="ascii") as file:
            return (ran.returncode, ran.stdout, ran.stderr, place), int(file.read())


def refuse_each(runner, words, input):
    """How many allocations a run makes, each of which was refused; it can do without one of them at most."""
    ever, made = runner.run(words, input, 0)
    if ever[0] == OUT_OF_MEMORY or not 0 < made < MOST:
        raise Wrong(f"an undisturbed run ends with {ever[0]} and makes {made} allocations")
    spared = 0
    for number in range(1, made + 1):
        got, _ = runner.run(words, input, number)
        spared += got == ever
        if spared > SPARED or got not in (ever, (OUT_OF_MEMORY, b"", TEXT, 0)):
            raise Wrong(f"with allocation {number} of {made} refused it ends with {got[0]}, {len(got[1])} bytes, {got[2]!r}, {got[3]} bytes read")
    if runner.run(words, input, made + 1) != (ever, made):
        raise Wrong("it isn't the same where an allocation is refused that it doesn't make")
    return made


def main(program, library):
    counts = []
    with tempfile.TemporaryDirectory() as room:
        runner = Runner(program, library, room)
        for words, input in RUNS:
            try:
                counts.append(f"{words[0]} {refuse_each(runner, words, input)}")
            except Wrong as wrong:
                print(f"allocations: FAILED: {' '.join(words)}: {wrong}")
                return 1
    print(f"allocations: passed: each allocation refused in turn: {', '.join(counts)}")
    return 0


if __name__ == "__main__":
    sys.exit(main(*sys.argv[1:3]))

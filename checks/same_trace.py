#!/usr/bin/env python3
"""same_trace.py alike|unlike PROGRAM BYTES WORDS.. runs a program under valgrind's lackey on inputs of BYTES bytes: zeros
twice, then ones and random bytes. Line by line the traces of instructions and addresses are to be alike, but for the lines
that differ between runs on zeros. Two such runs may agree by chance in a line that goes by chance, so where a difference
shows there are four more, and it counts where it stands against all six. With `unlike` the traces are to differ, for a
program that is known to show its input.

It is a model of the processor, and these inputs alone."""

import os
import random
import subprocess
import sys
import tempfile


def trace(command, data, room):
    """The lines of one run: I, L, S and M for what is fetched, loaded, stored and modified, with address and size."""
    log = os.path.join(room, "log")
    valgrind = ["valgrind", "--tool=lackey", "--trace-mem=yes", "--log-file=" + log]
    ran = subprocess.run(valgrind + command, input=data, stdout=subprocess.DEVNULL, env={"PATH": os.environ["PATH"]})
    if ran.returncode != 0:
        raise SystemExit(f"same_trace: FAILED: {' '.join(command)} ended with status {ran.returncode}")
    with open(log, encoding="ascii") as lines:
        return [line for line in lines if not line.startswith("==")]


def differences(zeros, other):
    """What `other` has in places where all runs on zeros agree, and None where the lengths differ."""
    if any(len(run) != len(other) for run in zeros):
        return None
    first, *rest = zeros
    return [(a, c) for a, c, *others in zip(first, other, *rest) if a != c and all(b == a for b in others)]


def main():
    wanted, program, size, words = sys.argv[1], sys.argv[2], int(sys.argv[3]), sys.argv[4:]
    command = [os.path.abspath(program)] + words
    name = " ".join([program] + words)
    inputs = [b"\xff" * size, random.Random(1).randbytes(size), random.Random(2).randbytes(size)]
    with tempfile.TemporaryDirectory() as room:
        zeros = [trace(command, bytes(size), room) for _ in range(2)]
        traces = [trace(command, data, room) for data in inputs]
        found = [differences(zeros, other) for other in traces]
        if any(found):
            zeros += [trace(command, bytes(size), room) for _ in range(4)]
            found = [differences(zeros, other) for other in traces]
    alike = all(pairs == [] for pairs in found)
    if alike != (wanted == "alike"):
        print(f"same_trace: FAILED: {name}: the traces of inputs of {size} bytes are {'alike' if alike else 'not alike'}")
        for pairs in found:
            if pairs:
                print(f"same_trace: {len(pairs)} lines differ, at first {pairs[0][0].strip()} and {pairs[0][1].strip()}")
        return 1
    print(f"same_trace: {name}: {len(zeros[0])} lines of trace, {wanted} for {len(inputs) + 1} inputs, as they must be")
    return 0


if __name__ == "__main__":
    sys.exit(main())

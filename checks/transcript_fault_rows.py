#!/usr/bin/env python3
"""Writes a transcript with one byte changed, and what machine_rules.py reads there: for the tests of transcript_pairs.

    python3 checks/transcript_fault_rows.py > crates/transcript_pairs/src/fault_rows.rt
    (cd crates/transcript_pairs && rt fmt)

The transcript has a plain pair, a numbered one and one with a payload. What is read is told by the number of whole pairs that stand in
front, the offset of the first fault, that of the byte with which it shows (or twice 255 where there is none), and whether the transcript
ends with a whole pair. A row has a byte's offset, the values from one to another that it is set to, how far a fault moves on with each
value, and what is read at the first of them. The last table has what is read of the first bytes alone, from so many to so many.
"""
from machine_rules import INIT, OFFICER, ZERO, Command, Head, NUMBER, read_transcript

PAIRS = (
    (Command(NUMBER["PowerOn"], bytes([0, 0, 0, 3])), Head(NUMBER["PowerOn"], None, 0, INIT, 0, 0, ZERO, 0), b""),
    (Command(NUMBER["ShowVersion"], b"", 1), Head(NUMBER["ShowVersion"], 1, 0, INIT, 0, 0, b"SYMMOD 01.00", 0), b""),
    (Command(NUMBER["Hash"], b"\1"), Head(NUMBER["Hash"], None, 0, OFFICER, 1, 0, ZERO, 32), bytes(range(32))),
)
NONE = 255


def read(transcript):
    pairs, fault, whole = read_transcript(transcript)
    return (pairs, *(fault or (NONE, NONE)), whole)


def moved(told, way):
    """What is read where the fault lies so much farther on."""
    return (told[0], told[1] + way, told[2] + way, told[3])


def step_between(one, other):
    """How far the fault moves on from one to the other; None where they differ in more."""
    return next((step for step in (0, 1) if moved(one, step) == other), None)


def rows_of(transcript):
    for place in range(len(transcript)):
        told = [read(transcript[:place] + bytes([value]) + transcript[place + 1 :]) for value in range(256)]
        first = 0
        while first < 256:
            last = first
            step = step_between(told[first], told[first + 1]) if first < 255 else None
            while last < 255 and step is not None and moved(told[last], step) == told[last + 1]:
                last += 1
            yield place, first, last, step or 0, told[first]
            first = last + 1


def cuts_of(transcript):
    told = [read(transcript[:length]) for length in range(len(transcript) + 1)]
    first = 0
    for length in range(1, len(told) + 1):
        if length == len(told) or told[length] != told[first]:
            yield first, length - 1, told[first]
            first = length


def table(name, shape, rows):
    print(f"pub(crate) static {name}: [{shape}; {len(rows)}] = [")
    for row in rows:
        print(f"    {row},".replace("True", "true").replace("False", "false"))
    print("];")


def main():
    transcript = b"".join(command.frame() + head.frame() + payload for command, head, payload in PAIRS)
    print("//! A transcript with one byte changed, and cut, written by checks/transcript_fault_rows.py; see there.\n")
    print("/// Whole pairs, the fault, the byte that shows it, and whether the end is one of a pair.")
    print("pub(crate) type Read = (u32, u64, u64, bool);\n")
    print("/// A byte's offset, the values from one to another, how far the fault moves with each, and what is read at the first.")
    print("pub(crate) type Row = (usize, u8, u8, u64, Read);\n")
    print("/// So many bytes, from one number to another, and what is read of them.")
    print("pub(crate) type Cut = (usize, usize, Read);\n")
    content = ", ".join(f"0x{byte:02x}" for byte in transcript)
    print(f"pub(crate) static TRANSCRIPT: [u8; {len(transcript)}] = [{content}];\n")
    table("ROWS", "Row", list(rows_of(transcript)))
    print()
    table("CUTS", "Cut", list(cuts_of(transcript)))


main()

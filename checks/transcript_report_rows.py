#!/usr/bin/env python3
"""Writes the rows of transcript_report's tests: transcripts, cut or with bytes changed, and their verdicts by machine_rules.py.

    python3 checks/transcript_report_rows.py > crates/transcript_report/src/tests/rows.rt
    (cd crates/transcript_report && rt fmt)

A row is how many bytes of the transcript there are, two places in it and the bytes that are set there, how the check ends, and what is
written. Checks of longer transcripts are stored in transcript_program: see transcript_runs.py.
"""
import sys

sys.dont_write_bytecode = True

from machine_rules import APPROVED, INIT, NUMBER, SELF_TEST, ZERO, Command, Head, Public, number, read_command, read_head, read_transcript, step

STATUS = bytes([0, 0, 0x40, 0x10, 0, 0, 0x03, 0xE8, 0, 0, 0, 0])
WOVEN = (
    ("PowerOn", bytes([0, 0, 0x03, 0xE8]), INIT, ZERO),
    ("RequestTests", b"", SELF_TEST, ZERO),
    ("TestStep", b"", SELF_TEST, ZERO),
    ("TestStep", b"", SELF_TEST, ZERO),
    ("TestStep", b"", APPROVED, ZERO),
    ("ShowStatus", b"", APPROVED, STATUS),
)


def woven():
    pairs = [(Command(NUMBER[name], body), Head(NUMBER[name], None, 0, state, 0, 0, block, 0)) for name, body, state, block in WOVEN]
    return b"".join(command.frame() + head.frame() for command, head in pairs)


def split(transcript, count):
    """The commands and the heads of as many pairs from the front."""
    at = 0
    for _ in range(count):
        parts = []
        for plain, place in ((8, 4), (24, 20)):
            size = plain + 4 * (transcript[at + 1] == 2)
            length = number(transcript[at + place : at + place + 4])
            parts.append(transcript[at : at + size + (length if plain == 8 else 0)])
            at += size + length
        yield read_command(parts[0]), read_head(parts[1])


def verdict(transcript):
    """How the check ends, and what is written."""
    count, fault, is_whole = read_transcript(transcript)
    public = Public()
    for place, (command, head) in enumerate(split(transcript, count), 1):
        public = step(public, command, head)
        if public is None:
            return f"Checked::Unlawful({place})", f"pair {place}\\n"
    if fault:
        return f"Checked::BadFrame({fault[0]})", ""
    return ("Checked::Lawful", f"lawful {count}\\n") if is_whole else ("Checked::Truncated", "")


def row(transcript, size=None, *changes):
    """With no change the first byte is set to what it is."""
    size = len(transcript) if size is None else size
    changes = (list(changes) + [(0, transcript[0])] * 2)[:2]
    changed = bytearray(transcript)
    for place, value in changes:
        changed[place] = value
    answer, text = verdict(bytes(changed[:size]))
    (first, one), (second, other) = changes
    return f'({size}, {first}, 0x{one:02x}, {second}, 0x{other:02x}, {answer}, "{text}")'


def woven_rows(transcript):
    yield row(transcript)
    # a state that the fifth pair doesn't lead to, a cut behind the second command, a byte that begins no reply, and nothing
    yield row(transcript, None, (144, 0x04))
    yield row(transcript, 44)
    yield row(transcript, None, (12, 0x00))
    yield row(transcript, 0)
    # an unlawful pair before a bad frame in its chunk, and behind one
    yield row(transcript, None, (144, 0x04), (164, 0x00))
    yield row(transcript, None, (144, 0x04), (172, 0x00))
    yield row(transcript, None, (144, 0x04), (108, 0x00))
    yield row(transcript, 165, (144, 0x04))
    yield row(transcript, 163, (144, 0x04))
    # two unlawful pairs
    yield row(transcript, None, (144, 0x04), (48, 0x03))
    for end in (36, 68, 100, 132, 164):
        yield from (row(transcript, size) for size in (end - 1, end, end + 1))
    for place in range(0, len(transcript), 5):
        yield row(transcript, None, (place, transcript[place] ^ 1))


def table(doc, name, shape, rows):
    print(f"/// {doc}\nstatic {name}: [{shape}; {len(rows)}] = [{', '.join(rows)}];\n")
    print(f"pub(super) fn {name.lower()}() -> &'static [{shape}] {{\n    &{name}\n}}\n")


def main():
    print("//! Written by `checks/transcript_report_rows.py`; see there.\nuse crate::Checked;\n")
    print("pub(super) type Row = (usize, usize, u8, usize, u8, Checked, &'static str);\n")
    transcript = woven()
    table(f"{len(transcript)} bytes.", "WOVEN", "u8", [f"0x{byte:02x}" for byte in transcript])
    table("Its rows.", "WOVEN_ROWS", "Row", list(woven_rows(transcript)))


if __name__ == "__main__":
    main()

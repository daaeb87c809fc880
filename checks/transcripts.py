#!/usr/bin/env python3
"""Checks transcripts, as docs/INTERFACE.md tells it of the word `check`: each command's frame, and its reply's behind it.

    python3 checks/transcripts.py FILE    writes what `check` writes of this file, and ends with the same status

Nothing here was taken from the crates. Frames are read, and the rules of a pair stand, in machine_rules.py.
"""
import os
import re
import sys

from machine_rules import LONGEST_HEAD, BadFrame, Public, pair_at, read_command, read_head, step

LAWFUL, BAD_FRAME, TRUNCATED, NOT_LAWFUL = 0, 3, 4, 16
MANUAL = os.path.join(os.path.dirname(os.path.abspath(__file__)), "..", "docs", "INTERFACE.md")
ROW = re.compile(r"\| `(c5[0-9a-f]+)` \| `(5c[0-9a-f]+)`(?: and `([0-9a-f]+)`)? \|")
SHOWN = re.compile(r"^    command (c5[0-9a-f]+)\n    reply   (5c[0-9a-f]+)(?: ([0-9a-f]+))?$", re.MULTILINE)


def after_pair(public, transcript, at, pair):
    """The public state after this pair, or None where it breaks a rule."""
    reply, _ = pair
    return step(public, read_command(transcript[at:reply]), read_head(transcript[reply : reply + LONGEST_HEAD]))


def check(transcript, pairs=0, at=0, public=Public()):
    """The exit status, and what is written; from here on, where so many pairs before it were lawful and led to this public state."""
    try:
        while pair := pair_at(transcript, at):
            pairs, public = pairs + 1, after_pair(public, transcript, at, pair)
            if public is None:
                return NOT_LAWFUL, b"pair %d\n" % pairs
            at = pair[1]
    except BadFrame:
        return BAD_FRAME, b""
    return (LAWFUL, b"lawful %d\n" % pairs) if at == len(transcript) else (TRUNCATED, b"")


def manual_transcript(heading, pairs=ROW):
    """The pairs of a dialogue of the manual: frame, head, payload."""
    with open(MANUAL, encoding="utf-8") as file:
        text = file.read()
    part = text.split(f"\n## {heading}\n")[1].split("\n## ")[0]
    return [tuple(bytes.fromhex(digits or "") for digits in row) for row in pairs.findall(part)]


def main(words):
    if len(words) != 1:
        print(__doc__.split("\n\n")[1], file=sys.stderr)
        return 2
    with open(words[0], "rb") as file:
        status, written = check(file.read())
    sys.stdout.buffer.write(written)
    return status


if __name__ == "__main__":
    sys.exit(main(sys.argv[1:]))

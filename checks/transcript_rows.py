#!/usr/bin/env python3
"""Writes the transcripts of the tests of transcript_check, and what machine_rules.py says of each with one byte changed.

    python3 checks/transcript_rows.py > crates/transcript_check/src/transcript_rows.rt
    (cd crates/transcript_check && rt fmt)

A line is a pair: the command's frame and its reply's head; a payload, of which no rule tells more than its length, is left out. Two transcripts
are the dialogues of docs/INTERFACE.md; the others are written here, with numbered commands, failures and the ends of periods. A row is a pair's
number from 1 on, bytes of its reply's head from one to another, values from one to another, and the number of the first pair that breaks a
rule where one of these bytes has one of these values and had another, or 0 where none does. For all other values it is the pair itself.
"""
from machine_rules import (
    AUTH_FAILED, BAD_LENGTH, CHECK_FAILED, EMPTY_SLOT, NOISE_FAULT, NUMBER, OK, OUT_OF_ORDER, SPENT, TEST_FAILED, ZERO, Command, Head, Public,
    read_command, read_head, refusal, step,
)
from transcripts import manual_transcript


class Dialogue:
    """Pairs that are written here: what isn't said of a reply is what the rules leave no choice of."""

    def __init__(self):
        self.public, self.pairs = Public(), []

    def say(self, name, body=b"", status=OK, code=None, block=ZERO, length=0, approved=0, number=None):
        service = NUMBER.get(name, name)
        command = Command(service, body, number)
        reason = refusal(self.public, command)
        if reason is not None:
            status = reason
        if reason == OUT_OF_ORDER:
            block = self.public.expected.to_bytes(4, "big") + bytes(8)
        heads = [
            Head(service, number, status, state, approved, self.public.code if code is None else code, block, length) for state in range(8)
        ]
        lawful = [(head, then) for head in heads if (then := step(self.public, command, head))]
        assert len(lawful) == 1, (name, body, status, self.public)
        head, self.public = lawful[0]
        self.pairs.append((command.frame(), head.frame(), bytes(length)))

    def status(self, tests=0x0010):
        p = self.public
        self.say("ShowStatus", block=bytes([p.back, p.step]) + tests.to_bytes(2, "big") + p.period.to_bytes(4, "big") + p.count.to_bytes(4, "big"), code=p.code)

    def reset(self):
        self.say("Reset", code=0)
        self.say("RequestTests")

    def tests(self, count=3):
        for _ in range(count):
            self.say("TestStep")

    def role(self, role):
        self.say("SelectRole", bytes([role]))


SEAL = bytes([1, 16, 0, 0, 0, 2]) + b"AAtext"
SEAL_IV = bytes([1, 12, 12, 0, 0, 0, 0]) + bytes(12) + b"text"
OPEN = bytes([1, 12, 12, 0, 0, 0, 0]) + bytes(12) + b"text" + bytes(12)
RANDOM = bytes([0, 0, 0, 5])
UNWRAP = bytes([0, 1, 3, 0, 0, 0, 0, 1]) + bytes(24)
DERIVE = bytes([0, 1, 3, 0, 0, 0, 0, 1, 14, 2]) + b"labelled"
PARAMETER = bytes([3, 3, 0, 0, 0, 0, 0, 9, 4])


def numbered():
    """Numbered commands beside others, in their order and out of it."""
    d = Dialogue()
    d.say("PowerOn", bytes(4), number=1)
    d.say("PowerOn", bytes(4), number=1)
    d.say("ShowVersion", block=b"SYMMOD 01.00")
    d.say(0x7E, number=2)
    d.say(0x00, b"any", number=3)
    d.say("TestStep", number=4)
    d.say("RequestTests", b"?", number=5)
    d.say("RequestTests", number=6)
    d.say(0x1E, number=2**32 - 1)
    d.status()
    d.tests()
    d.say("SelectRole", b"\1", number=7)
    d.say("EntryBegin", PARAMETER, number=8)
    d.say("EntryBytes", b"key", number=9)
    d.say("EntryCommit", bytes(8), number=9)
    d.say("EntryCommit", bytes(8), status=BAD_LENGTH, number=10)
    d.say("Hash", b"\3", length=64, approved=1, number=11)
    d.say("Reset", number=0)
    d.say("Reset", number=12)
    d.status(0)
    return d.pairs


def failures():
    """Tests and noise that fail, in each way that there is."""
    d = Dialogue()
    d.say("PowerOn", bytes([0, 0, 0, 9]))
    d.say("RequestTests")
    d.say("TestStep", status=TEST_FAILED, code=0x0104)
    d.status(0)
    d.role(1)
    d.say("ShowVersion", block=b"SYMMOD 01.00")
    d.say("EntryBytes")
    for steps, status, code in ((1, TEST_FAILED, 0x0200), (2, TEST_FAILED, 0x010E), (2, NOISE_FAULT, 0x0300), (2, NOISE_FAULT, 0x0500)):
        d.reset()
        d.tests(steps)
        d.say("TestStep", status=status, code=code)
        d.role(2)
    for role, name, body, status, code in (
        (2, "Hash", b"\2text", TEST_FAILED, 0x0102), (2, "Mac", bytes([0, 3, 9]), TEST_FAILED, 0x0106), (2, "MacVerify", bytes([0, 2, 1, 7]), TEST_FAILED, 0x0105),
        (2, "Seal", SEAL, TEST_FAILED, 0x0107), (2, "Seal", SEAL, NOISE_FAULT, 0x0600), (2, "SealIv", SEAL_IV, TEST_FAILED, 0x0107),
        (2, "Open", OPEN, TEST_FAILED, 0x0108), (1, "Wrap", b"\0\1", TEST_FAILED, 0x0109), (1, "Unwrap", UNWRAP, TEST_FAILED, 0x010A),
        (1, "WrapPad", b"\0\1", TEST_FAILED, 0x010B), (1, "UnwrapPad", UNWRAP, TEST_FAILED, 0x010C), (1, "Derive", DERIVE, TEST_FAILED, 0x010D),
        (1, "Random", RANDOM, NOISE_FAULT, 0x0400), (1, "Generate", PARAMETER, NOISE_FAULT, 0x0300), (1, "Reseed", b"", NOISE_FAULT, 0x0500),
    ):
        d.reset()
        d.tests()
        d.role(role)
        d.say(name, body, status=status, code=code)
    d.status(0x4010)
    return d.pairs


def periods():
    """Periods that end, with a service that is done, one that is refused, and one that fails."""
    d = Dialogue()
    d.say("PowerOn", bytes([0, 0, 0, 2]))
    d.say("RequestTests")
    d.tests()
    d.role(1)
    d.say("EntryBegin", PARAMETER)
    d.say("EntryBytes", b"long!", status=BAD_LENGTH)
    d.say("EntryBytes", b"key!")
    d.say("EntryCommit", bytes(8), status=CHECK_FAILED)
    d.say("Random", RANDOM, length=5, approved=1)
    d.status(0x4010)
    d.say("Wrap", b"\0\1", length=24, approved=1)
    d.status(0)
    d.say("Random", RANDOM)
    d.tests()
    d.say("Wrap", b"\0\1", status=EMPTY_SLOT)
    d.say("Derive", DERIVE, status=SPENT)
    d.tests(2)
    d.status(0x0010)
    d.tests(1)
    d.role(2)
    d.say("SealIv", SEAL_IV, length=16)
    d.say("Open", OPEN, status=AUTH_FAILED)
    d.tests()
    d.say("Mac", bytes([0, 1, 3]), length=3)
    d.say("RequestTests")
    d.tests()
    d.say("Mac", bytes([0, 1, 4]), length=4)
    d.say("Hash", b"\3", status=TEST_FAILED, code=0x0103)
    d.status(0x4010)
    d.reset()
    d.tests()
    d.role(0)
    d.status(0x4010)
    return d.pairs


def first_broken(public, pairs, at):
    """The number of the first pair from this one on that breaks a rule; 0 where none does."""
    for place, (command, head) in enumerate(pairs[at:], at + 1):
        public = head and step(public, command, head)
        if public is None:
            return place
    return 0


def rows_of(pairs):
    read = [(read_command(frame), read_head(head)) for frame, head, _ in pairs]
    public = Public()
    for at, (command, told) in enumerate(read):
        head = pairs[at][1]
        for byte in range(len(head)):
            verdicts = []
            for value in range(256):
                changed = read_head(head[:byte] + bytes([value]) + head[byte + 1 :])
                then = changed and step(public, command, changed)
                verdicts.append(first_broken(then, read, at + 1) if then else at + 1)
            # The byte as it is needs no row of its own.
            verdicts[head[byte]] = verdicts[head[byte] - 1 if head[byte] else 1]
            yield from runs(at, byte, verdicts)
        public = step(public, command, told)


def runs(at, byte, verdicts):
    """The runs of values whose verdict isn't the pair itself."""
    first = 0
    for value in range(1, 257):
        if value == 256 or verdicts[value] != verdicts[first]:
            if verdicts[first] != at + 1:
                yield at + 1, byte, first, value - 1, verdicts[first]
            first = value


def joined(rows):
    """One row for bytes that stand side by side and have the same runs."""
    joined_rows = []
    for pair, byte, *run in sorted(rows, key=lambda row: (row[0], row[2:], row[1])):
        last = joined_rows[-1] if joined_rows else None
        if last and last[0] == pair and last[2] == byte - 1 and last[3:] == run:
            last[2] = byte
        else:
            joined_rows.append([pair, byte, byte, *run])
    return sorted(tuple(row) for row in joined_rows)


TRANSCRIPTS = {
    "DIALOGUE": lambda: manual_transcript("A dialogue"),
    "KEYS": lambda: manual_transcript("A dialogue with keys"),
    "NUMBERED": numbered,
    "FAILURES": failures,
    "PERIODS": periods,
}


def main():
    print("//! Transcripts, and what is said of each with one byte changed, written by checks/transcript_rows.py; see there.\n")
    print("/// A pair, bytes of its reply's head from one to another, values from one to another, and the first pair that breaks a rule then.")
    print("pub(crate) type Row = (u32, usize, usize, u8, u8, u32);\n")
    for name, made in TRANSCRIPTS.items():
        pairs = made()
        assert pairs and first_broken(Public(), [(read_command(frame), read_head(head)) for frame, head, _ in pairs], 0) == 0, name
        rows = joined(rows_of(pairs))
        print(f"pub(crate) static {name}: [&str; {len(pairs)}] = [")
        for frame, head, _ in pairs:
            print(f'    "{frame.hex()} {head.hex()}",')
        print("];\n")
        print(f"pub(crate) static {name}_ROWS: [Row; {len(rows)}] = [")
        for row in rows:
            print(f"    {row},")
        print("];\n")


if __name__ == "__main__":
    main()

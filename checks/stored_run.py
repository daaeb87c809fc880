#!/usr/bin/env python3
"""Writes the run of module_program that `rt ci` makes: its words, its files, its input and the output that it must have.

    python3 checks/stored_run.py            writes crates/module_program/args, stdin, stdout and data/
    python3 checks/stored_run.py --check    compares them with what it would write

The replies are written out here row by row; digests and MACs come from Python's hashlib and hmac.
"""
import hashlib
import hmac
import os
import sys

from stored_files import content

CRATE = os.path.join(os.path.dirname(os.path.abspath(__file__)), "..", "crates", "module_program")

IMAGE = b"abc"
IMAGE_KEY = bytes(range(32))
PASS = 1408
# Three passes of the tests, and a fourth that finds too few samples.
SAMPLES = 3 * PASS + 1000

POWER_ON, TEST_STEP, REQUEST_TESTS, SHOW_STATUS, SHOW_VERSION, SELECT_ROLE, RESET = range(1, 8)
ENTRY_BEGIN, ENTRY_BYTES, ENTRY_COMMIT, ENTRY_ABORT, ZEROISE, ZEROISE_ALL, SHOW_SLOT = range(8, 15)
HASH, MAC, MAC_VERIFY = range(16, 19)
OK, NOT_IN_STATE, NOISE_FAULT, BAD_LENGTH, OUT_OF_ORDER = 0, 2, 5, 12, 16
OFF, INIT, SELF_TEST, APPROVED, OFFICER, USER, ENTRY, ERROR = range(8)
NOISE_ENDED = 0x0300

TARGET = bytes.fromhex("030300000000006404")
KEY = b"Jefe"
CHECK = hmac.new(KEY, TARGET, "sha256").digest()[:8]
QUESTION = b"what do ya want for nothing?"
ANSWER = hmac.new(KEY, QUESTION, "sha256").digest()


def command(service, body=b"", number=None):
    head = bytes([0xC5, 1 if number is None else 2, service, 0]) + len(body).to_bytes(4, "big")
    return head + (b"" if number is None else number.to_bytes(4, "big")) + body


def reply(service, status, state, block=b"", payload=b"", approved=0, code=0, number=None):
    head = bytes([0x5C, 1 if number is None else 2, service, status, state, approved]) + code.to_bytes(2, "big")
    head += block.ljust(12, b"\0") + len(payload).to_bytes(4, "big")
    return head + (b"" if number is None else number.to_bytes(4, "big")) + payload


def row(service, body, status, state, number=None, **told):
    return command(service, body, number), reply(service, status, state, number=number, **told)


def status_block(back=0, steps=0, passed=(), period=3, uses=0):
    tests = sum(1 << test for test in passed)
    return bytes([back, steps]) + tests.to_bytes(2, "big") + period.to_bytes(4, "big") + uses.to_bytes(4, "big")


def slot_block(uses):
    return bytes([1, TARGET[1], TARGET[2], TARGET[3], len(KEY), 0, 0, 0]) + uses.to_bytes(4, "big")


def tests(back):
    """The tests, from Init or as they became due, and the state that they return to."""
    return [
        row(TEST_STEP, b"", OK, SELF_TEST),
        row(SHOW_STATUS, b"", OK, SELF_TEST, block=status_block(back, 1, [4])),
        row(TEST_STEP, b"", OK, SELF_TEST),
        row(TEST_STEP, b"", OK, back),
    ]


ENTERED = [
    row(ENTRY_BEGIN, TARGET, OK, ENTRY),
    row(ENTRY_BYTES, KEY + b"\0", BAD_LENGTH, ENTRY),
    row(ENTRY_BYTES, KEY, OK, ENTRY),
]

DIALOGUE = [
    # power, the tests, a role and a first digest
    row(SHOW_STATUS, b"", OK, OFF, block=status_block(period=0)),
    row(POWER_ON, bytes([0, 0, 0, 3]), OK, INIT),
    row(SHOW_STATUS, b"", OK, INIT, block=status_block()),
    row(REQUEST_TESTS, b"", OK, SELF_TEST),
    *tests(APPROVED),
    row(SHOW_STATUS, b"", OK, APPROVED, block=status_block(passed=[4, 14])),
    row(SELECT_ROLE, bytes([2]), OK, USER),
    row(HASH, b"\1abc", OK, USER, payload=hashlib.sha256(b"abc").digest(), approved=1),
    row(SHOW_STATUS, b"", OK, USER, block=status_block(passed=[1, 4, 14], uses=1)),
    # an entry that is given up, and what an officer may do
    row(SELECT_ROLE, bytes([1]), OK, OFFICER),
    row(SHOW_VERSION, b"", OK, OFFICER, block=b"SYMMOD 01.00"),
    *ENTERED,
    row(ENTRY_ABORT, b"", OK, OFFICER),
    row(SHOW_SLOT, bytes([3]), OK, OFFICER),
    row(ZEROISE, bytes([3]), OK, OFFICER),
    row(ZEROISE_ALL, b"", OK, OFFICER),
    # after a Reset the tests are due anew
    row(RESET, b"", OK, INIT),
    row(REQUEST_TESTS, b"", OK, SELF_TEST),
    *tests(APPROVED),
    # a key is entered and used, and the third use makes tests due
    row(SELECT_ROLE, bytes([1]), OK, OFFICER),
    *ENTERED,
    row(ENTRY_COMMIT, CHECK, OK, OFFICER),
    row(SHOW_SLOT, bytes([3]), OK, OFFICER, block=slot_block(100)),
    row(SELECT_ROLE, bytes([2]), OK, USER),
    row(HASH, b"\1abc", OK, USER, payload=hashlib.sha256(b"abc").digest(), approved=1),
    row(MAC, bytes([3, 1, 32]) + QUESTION, OK, USER, payload=ANSWER),
    row(SHOW_STATUS, b"", OK, USER, block=status_block(passed=[1, 4, 14], uses=2)),
    row(MAC_VERIFY, bytes([3, 1, 32]) + ANSWER + QUESTION, OK, SELF_TEST),
    row(HASH, b"\1abc", NOT_IN_STATE, SELF_TEST),
    *tests(USER),
    row(SELECT_ROLE, bytes([1]), OK, OFFICER),
    row(SHOW_SLOT, bytes([3]), OK, OFFICER, block=slot_block(98)),
    row(ZEROISE, bytes([3]), OK, OFFICER),
    row(SHOW_SLOT, bytes([3]), OK, OFFICER),
    # the noise ends in the fourth pass
    row(REQUEST_TESTS, b"", OK, SELF_TEST),
    *tests(OFFICER)[:3],
    row(TEST_STEP, b"", NOISE_FAULT, ERROR, code=NOISE_ENDED),
    row(SELECT_ROLE, bytes([2]), NOT_IN_STATE, ERROR, code=NOISE_ENDED),
    row(SHOW_STATUS, b"", OK, ERROR, block=status_block(passed=[4, 14]), code=NOISE_ENDED),
    row(RESET, b"", OK, INIT),
    # numbered commands, the second of them out of order
    row(SHOW_STATUS, b"", OK, INIT, number=1, block=status_block()),
    row(SHOW_STATUS, b"", OUT_OF_ORDER, INIT, number=3, block=bytes([0, 0, 0, 2])),
]

FILES = {
    "args": b"serve\nimage\ndigest\nnoise\n",
    "stdin": b"".join(asked for asked, _ in DIALOGUE),
    "stdout": b"".join(answered for _, answered in DIALOGUE),
    "data/image": IMAGE,
    "data/digest": hmac.new(IMAGE_KEY, IMAGE, "sha256").hexdigest().encode() + b"\n",
    "data/noise": bytes(k % 256 for k in range(SAMPLES)),
}


def main(words):
    paths = {name: os.path.join(CRATE, name) for name in FILES}
    if words == ["--check"]:
        others = [name for name, wanted in FILES.items() if content(paths[name]) != wanted]
        for name in others:
            print(f"rows: FAILED: crates/module_program/{name} is NOT what checks/stored_run.py writes")
        if not others:
            print(f"rows: checks/stored_run.py: the {len(DIALOGUE)} commands of module_program's run are what it writes")
        return 1 if others else 0
    os.makedirs(os.path.join(CRATE, "data"), exist_ok=True)
    for name, wanted in FILES.items():
        with open(paths[name], "wb") as file:
            file.write(wanted)
    return 0


if __name__ == "__main__":
    sys.exit(main(sys.argv[1:]))

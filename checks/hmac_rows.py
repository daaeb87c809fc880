#!/usr/bin/env python3
"""Writes the expected values of hmac_core's tests, computed by Python's hashlib and hmac.

    python3 checks/hmac_rows.py > crates/hmac_core/src/tests/rows.rt
    (cd crates/hmac_core && rt fmt)

Each value is 64 bytes: the digest or the MAC, and zeros after it.
"""
import hashlib
import hmac

ALGS = (("256", "sha256"), ("384", "sha384"), ("512", "sha512"))
COUNTING = bytes(range(200))
TEXTS = (("EMPTY", b""), ("ABC", b"abc"), ("COUNTING", COUNTING))
# The keys and texts of RFC 4231, but for case 5, whose MAC is cut.
CASES = (
    (1, b"\x0b" * 20, b"Hi There"),
    (2, b"Jefe", b"what do ya want for nothing?"),
    (3, b"\xaa" * 20, b"\xdd" * 50),
    (4, bytes(range(1, 26)), b"\xcd" * 50),
    (6, b"\xaa" * 131, b"Test Using Larger Than Block-Size Key - Hash Key First"),
    (7, b"\xaa" * 131, b"This is a test using a larger than block-size key and a larger than "
        b"block-size data. The key needs to be hashed before being used by the HMAC algorithm."),
)
KEY_LENGTHS = (0, 1, 63, 64, 65, 127, 128, 129, 131, 200)


def row(name, value):
    padded = value + bytes(64 - len(value))
    print(f"pub(super) const {name}: [u8; 64] = [" + ", ".join(f"0x{b:02x}" for b in padded) + "];\n")


print("//! Written by `checks/hmac_rows.py` with Python's hashlib and hmac.\n")
for short, long in ALGS:
    for name, text in TEXTS:
        row(f"HASH_{short}_{name}", hashlib.new(long, text).digest())
    for number, key, text in CASES:
        row(f"CASE_{short}_{number}", hmac.new(key, text, long).digest())
    for length in KEY_LENGTHS:
        row(f"KEY_{short}_{length}", hmac.new(COUNTING[:length], COUNTING, long).digest())

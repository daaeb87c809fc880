#!/usr/bin/env python3
"""Writes the expected values of kbkdf_core's tests: counter mode of SP 800-108 Rev. 1, 4.1, from the
standard's formula, over Python's hmac.

    python3 checks/kbkdf_rows.py > crates/kbkdf_core/src/tests/rows.rt
    (cd crates/kbkdf_core && rt fmt)
"""
import hmac

COUNTING = bytes(range(256))
KEY = COUNTING[:32]
LENGTHS = (1, 31, 32, 33, 65536)


def mac(key, text):
    return hmac.new(key, text, "sha256").digest()


def derive(key, label, context, length):
    bits = (8 * length).to_bytes(4, "big")
    output, counter = b"", 0
    while len(output) < length:
        counter += 1
        output += mac(key, counter.to_bytes(4, "big") + label + b"\x00" + context + bits)
    return output[:length]


def row(name, value):
    digits = ", ".join(f"0x{b:02x}" for b in value)
    print(f"pub(super) const {name}: [u8; {len(value)}] = [{digits}];\n")


print("//! Written by `checks/kbkdf_rows.py` with Python's hmac.\n")
row("KNOWN_ANSWER", derive(KEY, b"label", b"context", 32))
# HMAC under the key "row" of what is derived with a label and a context of this length.
for length in LENGTHS:
    for name, text in (("BARE", b""), ("LONG", COUNTING[:255])):
        row(f"DERIVED_{length}_{name}", mac(b"row", derive(KEY, text, text[::-1], length)))

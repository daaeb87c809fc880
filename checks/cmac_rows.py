#!/usr/bin/env python3
"""Writes the expected values of cmac_core's tests.

CMAC comes from Python's `cryptography`; the subkeys and the three modes of key derivation come from the formulas of
SP 800-38B, section 6.1, and SP 800-108 Rev. 1, section 4, with a counter and a length of 32 bits and an empty K(0).
Counter mode is compared with `cryptography`'s own KBKDFCMAC, feedback mode with `openssl kdf`.

    python3 checks/cmac_rows.py > crates/cmac_core/src/tests/rows.rt
    (cd crates/cmac_core && rt fmt)
"""

import subprocess
import sys

sys.dont_write_bytecode = True

from cryptography.hazmat.primitives.ciphers.algorithms import AES
from cryptography.hazmat.primitives.cmac import CMAC
from cryptography.hazmat.primitives.kdf.kbkdf import KBKDFCMAC, CounterLocation, Mode

from ghash_rows import encrypted

# The keys and the text of SP 800-38B, appendix D.
KEYS = [bytes.fromhex(digits) for digits in (
    "2b7e151628aed2a6abf7158809cf4f3c",
    "8e73b0f7da0e6452c810f32b809079e562f8ead2522c6b7b",
    "603deb1015ca71be2b73aef0857d77811f352c073b6108d72d9810a30914dff4",
)]
TEXT = bytes.fromhex(
    "6bc1bee22e409f96e93d7e117393172aae2d8a571e03ac9c9eb76fac45af8e51"
    "30c81c46a35ce411e5fbc1191a0a52eff69f2445df4f9b17ad2b417be66c3710"
)
# Its published values under the first key: L, K1 and K2, and the CMACs of 0, 16, 40 and 64 bytes.
PUBLISHED = [
    "7df76b0c1ab899b33e42f047b91b546f", "fbeed618357133667c85e08f7236a8de", "f7ddac306ae266ccf90bc11ee46d513b",
    "bb1d6929e95937287fa37d129b756746", "070a16b46b4d4144f79bdd9dd04a287c",
    "dfa66747de9ae63030ca32611497c827", "51f0bebf7e3b9d92fc49741779363cfe",
]
COUNTING = bytes(n % 256 for n in range(4096))
CUT = (1, 15, 17, 31, 32, 33, 4096)
DERIVED = (1, 15, 16, 17, 255, 65536)


def cmac(key, text):
    mac = CMAC(AES(key))
    mac.update(text)
    return mac.finalize()


def doubled(block):
    shifted = (int.from_bytes(block, "big") << 1) % 2**128
    return (shifted ^ (0x87 if block[0] & 0x80 else 0)).to_bytes(16, "big")


def subkeys(key):
    first = doubled(encrypted(key, bytes(16)))
    return first, doubled(first)


def number(value):
    return value.to_bytes(4, "big")


def counter(key, fixed, count):
    return [cmac(key, number(i) + fixed) for i in range(1, count + 1)]


def feedback(key, fixed, count):
    blocks = [b""]
    for i in range(1, count + 1):
        blocks.append(cmac(key, blocks[-1] + number(i) + fixed))
    return blocks[1:]


def pipeline(key, fixed, count):
    blocks, chained = [], fixed
    for i in range(1, count + 1):
        chained = cmac(key, chained)
        blocks.append(cmac(key, chained + number(i) + fixed))
    return blocks


def openssl_feedback(key, label, context, length):
    """What `openssl kdf` derives; it takes no empty label or context."""
    options = ["mac:CMAC", "cipher:AES-128-CBC", "mode:FEEDBACK", f"hexkey:{key.hex()}"]
    options += [f"hexsalt:{label.hex()}", f"hexinfo:{context.hex()}"]
    words = [word for option in options for word in ("-kdfopt", option)]
    command = ["openssl", "kdf", "-binary", "-keylen", str(length), *words, "KBKDF"]
    return subprocess.run(command, check=True, capture_output=True).stdout


def derived(mode, key, label, context, length):
    fixed = label + b"\0" + context + number(8 * length)
    output = b"".join(mode(key, fixed, (length + 15) // 16))[:length]
    if mode is counter:
        peer = KBKDFCMAC(AES, Mode.CounterMode, length, 4, 4, CounterLocation.BeforeFixed, label, context, None)
        assert peer.derive(key) == output
    if mode is feedback and label:
        assert openssl_feedback(key, label, context, length) == output
    return output


def spelled(value):
    digits = value.hex()
    return "0x" + "_".join(digits[i:i + 8] for i in range(0, 32, 8))


def listed(values):
    return "[" + ", ".join(values) + "]"


def row(comment, name, shape, value):
    print(f"/// {comment}\npub(super) const {name}: {shape} = {value};\n")


def main():
    key = KEYS[0]
    macs = [[cmac(k, TEXT[:length]) for length in (0, 16, 40, 64)] for k in KEYS]
    assert [encrypted(key, bytes(16)), *subkeys(key), *macs[0]] == [bytes.fromhex(digits) for digits in PUBLISHED]

    print("//! Written by `checks/cmac_rows.py` with Python's `cryptography`.\n")
    row("K1 and K2 by the length of the key.", "SUBKEYS", "[[u128; 2]; 3]",
        listed(listed(map(spelled, subkeys(k))) for k in KEYS))
    row("CMACs by the length of the key, of 0, 16, 40 and 64 bytes of the standard's text.", "MACS", "[[u128; 4]; 3]",
        listed(listed(map(spelled, group)) for group in macs))
    row("CMACs of 1, 15, 17, 31, 32, 33 and 4,096 bytes that count up from 0.", "COUNTED", "[u128; 7]",
        listed(spelled(cmac(key, COUNTING[:length])) for length in CUT))
    text = number(1) + b"label\0context" + number(128)
    assert cmac(key, text) == derived(counter, key, b"label", b"context", 16)
    row("Sixteen bytes of counter and of feedback mode, with the label `label` and the context `context`.", "SIXTEEN",
        "u128", spelled(cmac(key, text)))
    row("The same of double-pipeline mode.", "SIXTEEN_PIPELINE", "u128",
        spelled(derived(pipeline, key, b"label", b"context", 16)))
    for name, mode in (("COUNTER", counter), ("FEEDBACK", feedback), ("PIPELINE", pipeline)):
        checks = []
        for label in (b"", COUNTING[:255]):
            outputs = [derived(mode, key, label, label[::-1], length) for length in DERIVED]
            checks.append(listed(spelled(cmac(key, output)) for output in outputs))
        row("CMACs of 1, 15, 16, 17, 255 and 65,536 derived bytes, without label and context and with 255 bytes each.",
            name, "[[u128; 6]; 2]", listed(checks))


if __name__ == "__main__":
    main()

#!/usr/bin/env python3
"""Writes the table of crates/gcm_mode/src/tests.rt, from the text of SP 800-38D, section 7.1.

AES comes from Python's `cryptography` in ECB mode, GHASH from ghash_rows.py. Where the IV has 8 to 64 bytes each
row is compared with `cryptography`'s own AESGCM.
"""

import sys

sys.dont_write_bytecode = True

from cryptography.hazmat.primitives.ciphers.aead import AESGCM

from ghash_rows import absorbed, encrypted


def lengths(m, n):
    return (8 * m).to_bytes(8, "big") + (8 * n).to_bytes(8, "big")


def number(block):
    return int.from_bytes(block, "big")


def inc32(block):
    return block[:12] + ((number(block[12:]) + 1) % 2**32).to_bytes(4, "big")


def gctr(key, start, text):
    stream = b""
    while len(stream) < len(text):
        stream += encrypted(key, start)
        start = inc32(start)
    return bytes(a ^ b for a, b in zip(text, stream))


def sealed(key, iv, aad, text):
    """Algorithm 4: the ciphertext and the full tag."""
    h = number(encrypted(key, bytes(16)))
    if len(iv) == 12:
        j0 = iv + b"\0\0\0\1"
    else:
        j0 = absorbed(h, absorbed(h, 0, iv), lengths(0, len(iv))).to_bytes(16, "big")
    ciphertext = gctr(key, inc32(j0), text)
    s = absorbed(h, absorbed(h, absorbed(h, 0, aad), ciphertext), lengths(len(aad), len(text)))
    return ciphertext, gctr(key, j0, s.to_bytes(16, "big"))


def pattern(factor, length):
    """The bytes that the test makes: byte i is `factor` times (i + 1), modulo 256."""
    return bytes(factor * (i + 1) % 256 for i in range(length))


# Bytes of key, IV, additional data and text.
CASES = [
    (16, 12, 0, 0), (24, 12, 0, 0), (32, 12, 0, 0),
    (16, 12, 0, 1), (16, 12, 1, 0), (24, 12, 0, 15), (32, 12, 0, 16), (16, 12, 0, 17),
    (16, 12, 15, 0), (24, 12, 16, 0), (32, 12, 17, 0), (16, 12, 20, 60), (24, 12, 20, 60), (32, 12, 20, 60),
    (16, 12, 13, 31), (16, 12, 16, 32), (24, 12, 33, 33), (32, 12, 64, 64), (32, 12, 100, 255),
    (16, 1, 0, 16), (16, 7, 3, 20), (24, 7, 0, 0), (32, 7, 16, 16),
    (16, 8, 20, 60), (24, 8, 0, 0), (32, 8, 1, 1), (16, 11, 5, 5), (32, 13, 5, 5),
    (16, 15, 0, 32), (24, 16, 0, 32), (32, 17, 0, 32), (16, 16, 16, 16),
    (16, 60, 20, 60), (24, 60, 20, 60), (32, 60, 20, 60), (32, 64, 0, 48),
    (16, 65, 7, 49), (24, 127, 31, 65), (32, 128, 32, 66), (16, 254, 0, 80), (32, 255, 90, 200),
]


def spelled(value):
    digits = f"{value:032x}"
    return "0x" + "_".join(digits[i:i + 8] for i in range(0, 32, 8))


def main():
    for key_length, iv_length, aad_length, text_length in CASES:
        key, iv = pattern(7, key_length), pattern(11, iv_length)
        aad, text = pattern(13, aad_length), pattern(17, text_length)
        ciphertext, tag = sealed(key, iv, aad, text)
        if 8 <= iv_length <= 64:
            assert AESGCM(key).encrypt(iv, text, aad) == ciphertext + tag
        last = ciphertext[-16:]
        print(f"    ({key_length}, {iv_length}, {aad_length}, {text_length}, {spelled(number(last))}, {spelled(number(tag))}),")


if __name__ == "__main__":
    main()

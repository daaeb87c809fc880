#!/usr/bin/env python3
"""Prints the tables of crates/key_wrap/src/tests.rt.

The wrappings come from Python's `cryptography` (aes_key_wrap, aes_key_wrap_with_padding). What no plaintext has as
its wrapping is made by the wrapping function W of SP 800-38F, section 6.1, over AES in ECB mode; W is compared with
aes_key_wrap first.
"""

from cryptography.hazmat.primitives.ciphers import Cipher, algorithms, modes
from cryptography.hazmat.primitives.keywrap import aes_key_wrap, aes_key_wrap_with_padding


def key_of(length):
    return bytes(7 * i + 1 for i in range(length))


def text_of(length):
    return bytes(3 * i + 2 for i in range(length))


def encrypted(key, block):
    encryptor = Cipher(algorithms.AES(key), modes.ECB()).encryptor()
    return encryptor.update(block) + encryptor.finalize()


def w(key, s):
    """Algorithm 1."""
    a, r = s[:8], [s[i:i + 8] for i in range(8, len(s), 8)]
    for t in range(1, 6 * len(r) + 1):
        b = encrypted(key, a + r[0])
        a = (int.from_bytes(b[:8], "big") ^ t).to_bytes(8, "big")
        r = r[1:] + [b[8:]]
    return a + b"".join(r)


def sealed(key, s):
    return encrypted(key, s) if len(s) == 16 else w(key, s)


def row(*words, wrapping):
    print("    (" + ", ".join(words) + ', "' + wrapping.hex() + '"),')


WHOLE = [16, 24, 32, 40, 48, 56, 64]
ANY = [1, 2, 7, 8, 9, 15, 16, 17, 20, 24, 31, 32, 33, 40, 47, 48, 55, 56, 63, 64]
ICV2 = bytes.fromhex("a65959a6")


def padded(size, text):
    return ICV2 + size.to_bytes(4, "big") + text


# What unwrap_pad refuses, and one row that it doesn't.
PADDED = [
    ("a plaintext of 9 bytes", True, padded(9, text_of(9) + bytes(7))),
    ("the last byte of padding is 1", False, padded(9, text_of(9) + bytes(6) + b"\1")),
    ("the first byte of padding is 128", False, padded(9, text_of(9) + b"\x80" + bytes(6))),
    ("one block whose padding is 1", False, padded(7, text_of(7) + b"\1")),
    ("nine semiblocks whose padding is 1", False, padded(63, text_of(63) + b"\1")),
    ("one block of length 0", False, padded(0, bytes(8))),
    ("three semiblocks of length 0", False, padded(0, bytes(16))),
    ("one block of length 9", False, padded(9, text_of(8))),
    ("three semiblocks of length 17", False, padded(17, text_of(16))),
    ("the greatest length", False, padded(2**32 - 1, text_of(16))),
    ("a length beyond 16 bits", False, padded(2**16 + 16, text_of(16))),
    ("eight bytes of padding", False, padded(8, text_of(8) + bytes(8))),
    ("fifteen bytes of padding", False, padded(1, text_of(1) + bytes(15))),
    ("half of the check value", False, bytes.fromhex("a65959a7") + (16).to_bytes(4, "big") + text_of(16)),
    ("the other half", False, bytes.fromhex("265959a6") + (16).to_bytes(4, "big") + text_of(16)),
]


def main():
    for length in WHOLE:
        assert w(key_of(24), b"\xa6" * 8 + text_of(length)) == aes_key_wrap(key_of(24), text_of(length))
    assert sealed(key_of(16), padded(9, text_of(9) + bytes(7))) == aes_key_wrap_with_padding(key_of(16), text_of(9))
    print("# ROWS")
    for key_length in (16, 24, 32):
        for length in WHOLE:
            row("false", str(key_length), str(length), wrapping=aes_key_wrap(key_of(key_length), text_of(length)))
    for n, length in enumerate(ANY):
        key_length = (16, 24, 32)[n % 3]
        row("true", str(key_length), str(length), wrapping=aes_key_wrap_with_padding(key_of(key_length), text_of(length)))
    print("# PADDED, under the key of 32 bytes")
    for name, right, s in PADDED:
        row(f'"{name}"', str(right).lower(), wrapping=sealed(key_of(32), s))
    print("# OTHER_CHECK_VALUES, under the key of 32 bytes")
    for value in ("a6a6a6a6a6a6a6a7", "26a6a6a6a6a6a6a6", "a6a6a6a600000000", "a65959a600000010"):
        row(f'"{value}"', wrapping=w(key_of(32), bytes.fromhex(value) + text_of(16)))


main()

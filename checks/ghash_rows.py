#!/usr/bin/env python3
"""Writes the table of crates/ghash_core/src/tests.rt, from the text of SP 800-38D, sections 6.3 and 6.4.

The product is taken bit by bit as in algorithm 1, and GHASH block by block as in algorithm 2. Each row is
checked once more by the sum of powers, and the method itself against tags of Python's `cryptography`.
"""

from cryptography.hazmat.primitives.ciphers import Cipher, algorithms, modes
from cryptography.hazmat.primitives.ciphers.aead import AESGCM

R = 0xE1 << 120


def product(x, y):
    """Algorithm 1: bit 0 is the leftmost."""
    z, v = 0, y
    for i in range(128):
        if x >> (127 - i) & 1:
            z ^= v
        v = v >> 1 ^ R if v & 1 else v >> 1
    return z


def blocks(text):
    return [int.from_bytes(text[i:i + 16].ljust(16, b"\0"), "big") for i in range(0, len(text), 16)]


def absorbed(h, start, text):
    """Algorithm 2 from the value `start` on."""
    for block in blocks(text):
        start = product(start ^ block, h)
    return start


def by_sum(h, start, text):
    """The start times H^m, and the sum of Xi times H^(m + 1 - i), from the last on."""
    power, total = 1 << 127, 0
    for x in reversed(blocks(text)):
        power = product(power, h)
        total ^= product(x, power)
    return total ^ product(start, power)


def encrypted(key, block):
    return Cipher(algorithms.AES(key), modes.ECB()).encryptor().update(block)


def agrees_with_tags():
    for key, length in [(bytes(16), 16), (bytes(range(32)), 100)]:
        h = int.from_bytes(encrypted(key, bytes(16)), "big")
        iv, text = bytes(range(12)), bytes(range(length))
        sealed = AESGCM(key).encrypt(iv, text, None)
        body, tag = sealed[:-16], sealed[-16:]
        lengths = bytes(8) + (8 * length).to_bytes(8, "big")
        s = absorbed(h, absorbed(h, 0, body), lengths)
        mask = int.from_bytes(encrypted(key, iv + b"\0\0\0\1"), "big")
        assert (s ^ mask).to_bytes(16, "big") == tag


def text_of(length):
    """The bytes that the test makes: byte i is 7 i + 3 modulo 256."""
    return bytes((7 * i + 3) % 256 for i in range(length))


def spelled(number):
    digits = f"{number:032x}"
    return "0x" + "_".join(digits[i:i + 8] for i in range(0, 32, 8))


SUBKEYS = [
    0x66E94BD4EF8A2C3B884CFA59CA342B2E,  # of the key of 16 zero bytes
    0xDC95C078A2408989AD48A21492842087,  # of the key of 32 zero bytes
]
LENGTHS = [0, 1, 15, 16, 17, 63, 64, 65, 127, 128, 255, 256, 257, 65_594]


def main():
    agrees_with_tags()
    assert encrypted(bytes(16), bytes(16)).hex() == f"{SUBKEYS[0]:032x}"
    assert encrypted(bytes(32), bytes(16)).hex() == f"{SUBKEYS[1]:032x}"
    starts = [0, int.from_bytes(bytes(range(0xF0, 0x100)), "big")]
    for h, start in zip(SUBKEYS, starts):
        for length in LENGTHS:
            want = absorbed(h, start, text_of(length))
            assert want == by_sum(h, start, text_of(length))
            print(f"            ({spelled(h)}, {spelled(start)}, {length}, {spelled(want)}),")


if __name__ == "__main__":
    main()

#!/usr/bin/env python3
"""Prints the rows of crates/aes_core/src/tests.rt, computed with Python's `cryptography`.

A checksum is a polynomial in 31 modulo 2^32: of bytes, and of the checksums of several texts or blocks.
"""

from cryptography.hazmat.primitives.ciphers import Cipher
from cryptography.hazmat.primitives.ciphers.algorithms import AES
from cryptography.hazmat.primitives.ciphers.modes import ECB

COUNTED = bytes(range(32))


def cipher(key):
    return Cipher(AES(key), ECB()).encryptor().update


def checksum(numbers):
    total = 0
    for number in numbers:
        total = (total * 31 + number) % 2**32
    return total


def stream(encipher, start, blocks):
    """The counter blocks enciphered (SP 800-38D, 6.5), the last 32 bits counted modulo 2^32."""
    count = int.from_bytes(start[12:], "big")
    counters = (start[:12] + ((count + i) % 2**32).to_bytes(4, "big") for i in range(blocks))
    return encipher(b"".join(counters))


def text_sum(keys, length):
    return checksum((i % 251) ^ keys[i] for i in range(length))


def counter_rows():
    """By the length of the key: last four bytes of the start, checksums of lengths 0 to 300 and of 65,594."""
    lasts = [2**32 - 1 - lane for lane in range(16)] + [1]
    for key_bytes, lasts in ((32, lasts), (16, [0xFFFFFFF8]), (24, [0xFFFFFFF8])):
        print(f"# starts, under a key of {key_bytes} bytes")
        for last in lasts:
            start = COUNTED[:12] + last.to_bytes(4, "big")
            keys = stream(cipher(COUNTED[:key_bytes]), start, 4100)
            short = checksum(text_sum(keys, length) for length in range(301))
            print(f"(0x{last:08x}, 0x{short:08x}, 0x{text_sum(keys, 65594):08x}),")


def single_bit(size, bit):
    block = bytearray(size)
    block[bit // 8] = 0x80 >> bit % 8
    return bytes(block)


def single_bit_rows():
    """Length of the key, checksums of the blocks of one bit under the key of zeros, and of the block of zeros under the keys of one bit."""
    print("# blocks and keys of one bit")
    for key_bytes in (16, 24, 32):
        under_zero = cipher(bytes(key_bytes))
        blocks = checksum(checksum(under_zero(single_bit(16, bit))) for bit in range(128))
        keys = checksum(checksum(cipher(single_bit(key_bytes, bit))(bytes(16))) for bit in range(8 * key_bytes))
        print(f"({key_bytes}, 0x{blocks:08x}, 0x{keys:08x}),")


counter_rows()
single_bit_rows()

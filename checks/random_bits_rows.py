#!/usr/bin/env python3
"""Writes the expected values of random_bits' tests: a generator seeded and reseeded from noise that counts up, by HMAC_DRBG of
SP 800-90A Rev. 1, 10.1.2, as drbg_rows.py has it.

    python3 checks/random_bits_rows.py > crates/random_bits/src/tests/rows.rt
    (cd crates/random_bits && rt fmt)
"""
import contextlib
import io
import os
import sys

sys.path.insert(0, os.path.dirname(os.path.abspath(__file__)))
with contextlib.redirect_stdout(io.StringIO()):
    from drbg_rows import Generator, row

NOISE = bytes(i % 256 for i in range(4096))


def main():
    print("//! Written by checks/random_bits_rows.py.\n")
    # 1,024 samples are dropped, 256 are entropy, 128 the nonce.
    generator = Generator(NOISE[1024:1280], NOISE[1280:1408])
    row("SEEDED_K", generator.k)
    row("SEEDED_V", generator.v)
    row("FIRST_DRAW", generator.generate(12))
    row("SECOND_DRAW", generator.generate(40, b"more"))
    # After 1,024 requests a draw is of a generator that was reseeded with the next 256 samples.
    generator.reseed(NOISE[1408:1664])
    row("RESEEDED_DRAW", generator.generate(12, b"more"))
    generator.reseed(NOISE[1664:1920], b"input")
    row("RESEEDED_K", generator.k)
    row("RESEEDED_V", generator.v)


main()

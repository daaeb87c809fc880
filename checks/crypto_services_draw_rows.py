#!/usr/bin/env python3
"""Writes the expected values of the services that draw: a generator seeded and reseeded from noise that counts up, by HMAC_DRBG of
SP 800-90A Rev. 1, 10.1.2, as drbg_rows.py has it.

    python3 checks/crypto_services_draw_rows.py > crates/crypto_services/src/tests/draw_rows.rt
    (cd crates/crypto_services && rt fmt)
"""
import contextlib
import hashlib
import io
import os
import sys

sys.path.insert(0, os.path.dirname(os.path.abspath(__file__)))
with contextlib.redirect_stdout(io.StringIO()):
    from drbg_rows import Generator, row

NOISE = bytes(i % 256 for i in range(4096))



def seeded():
    # 1,024 samples are dropped, 256 are entropy, 128 the nonce.
    return Generator(NOISE[1024:1280], NOISE[1280:1408])


def main():
    print("//! Written by checks/crypto_services_draw_rows.py.\n")
    generator = seeded()
    row("ONE_BYTE", generator.generate(1))
    row("FORTY_BYTES", generator.generate(40, b"more"))
    # The largest draw is shown by its SHA-256.
    row("LARGEST_DIGEST", hashlib.sha256(generator.generate(65536, b"more")).digest())
    generator = seeded()
    row("APPROVED_KEY", generator.generate(32))
    # A draw whose slot is full moves the generator on.
    generator.generate(14)
    row("OTHER_KEY", generator.generate(3))
    # After 1,024 requests a draw is of a generator that was reseeded with the next 256 samples, without the additional input.
    generator = seeded()
    generator.reseed(NOISE[1408:1664])
    row("RESEEDED_BYTES", generator.generate(12, b"more"))
    generator.reseed(NOISE[1664:1920], b"input")
    row("RESEEDED_K", generator.k)
    row("RESEEDED_V", generator.v)


main()

#!/usr/bin/env python3
"""Writes the expected values of the services that seal and open, by Python's cryptography; the drawn IVs as crypto_services_draw_rows.py
draws.

    python3 checks/crypto_services_seal_rows.py > crates/crypto_services/src/tests/seal_rows.rt
    (cd crates/crypto_services && rt fmt)
"""
import contextlib
import io
import os
import sys

from cryptography.hazmat.primitives.ciphers.aead import AESGCM

sys.path.insert(0, os.path.dirname(os.path.abspath(__file__)))
with contextlib.redirect_stdout(io.StringIO()):
    from crypto_services_draw_rows import row, seeded

KEY = bytes(range(32))
TEXT = b"what do ya want for nothing?"
AAD = b"header"


def sealed(iv, text, aad):
    return AESGCM(KEY).encrypt(iv, text, aad)


def main():
    print("//! Written by checks/crypto_services_seal_rows.py.\n")
    row("KEY", KEY)
    row("IV", bytes(range(64, 76)))
    row("SEALED", sealed(bytes(range(64, 76)), TEXT, AAD))
    row("LONG_IV", bytes(range(128)))
    row("SEALED_BY_LONG_IV", sealed(bytes(range(128)), TEXT, b""))
    # The tag of no text.
    row("TAG_ALONE", sealed(bytes(range(64, 76)), b"", AAD))
    generator = seeded()
    first = generator.generate(12)
    row("DRAWN", first + sealed(first, TEXT, AAD))
    # Two draws whose slots are refused move the generator on.
    generator.generate(12)
    generator.generate(12)
    fourth = generator.generate(12)
    row("DRAWN_LATER", fourth + sealed(fourth, TEXT, AAD)[:-4])


main()

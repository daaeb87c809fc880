#!/usr/bin/env python3
"""Writes the expected values of engine_core's tests, computed by Python's hashlib, hmac and cryptography.

    python3 checks/engine_rows.py > crates/engine_core/src/tests/rows.rt
    (cd crates/engine_core && rt fmt)

The digests and MACs are 64 bytes, zeros after the value. The MACs are those of the second and the sixth case of RFC 4231. The wrapping
without padding is that of RFC 3394, 4.1, the one with padding that of RFC 5649, section 6. Key derivation (SP 800-108, 4.1) and the
generator (SP 800-90A, 10.1.2) are written out over hmac.
"""
import hashlib
import hmac

from cryptography.hazmat.primitives.ciphers.aead import AESGCM
from cryptography.hazmat.primitives.keywrap import aes_key_wrap, aes_key_wrap_with_padding

ALGS = (("256", "sha256"), ("384", "sha384"), ("512", "sha512"))
TEXTS = (("EMPTY", b""), ("ABC", b"abc"))
MACS = (
    ("SHORT_KEY", b"Jefe", b"what do ya want for nothing?"),
    ("LONG_KEY", b"\xaa" * 131, b"Test Using Larger Than Block-Size Key - Hash Key First"),
)


KEK_16 = bytes(range(16))
KEK_24 = bytes.fromhex("5840df6e29b02af1ab493b705bf16ea1ae8338f4dcc176a8")
PLAIN_16 = bytes.fromhex("00112233445566778899aabbccddeeff")
PLAIN_7 = bytes.fromhex("466f7250617369")


def row(name, value):
    print(f"pub(super) const {name}: [u8; {len(value)}] = [" + ", ".join(f"0x{b:02x}" for b in value) + "];\n")


def padded_row(name, value):
    row(name, value + bytes(64 - len(value)))


def mac(key, text):
    return hmac.new(key, text, "sha256").digest()


def update(k, v, seed):
    k = mac(k, v + b"\x00" + seed)
    v = mac(k, v)
    if seed:
        k = mac(k, v + b"\x01" + seed)
        v = mac(k, v)
    return k, v


print("//! Written by `checks/engine_rows.py` with Python's hashlib, hmac and cryptography.\n")
for short, long in ALGS:
    for name, text in TEXTS:
        padded_row(f"HASH_{short}_{name}", hashlib.new(long, text).digest())
    for name, key, text in MACS:
        padded_row(f"MAC_{short}_{name}", hmac.new(key, text, long).digest())

sealed = AESGCM(bytes(32)).encrypt(bytes(12), bytes(16), b"")
row("CIPHERTEXT", sealed[:16])
row("TAG", sealed[16:])
row("KEK_16", KEK_16)
row("PLAIN_16", PLAIN_16)
row("WRAPPED_16", aes_key_wrap(KEK_16, PLAIN_16))
row("KEK_24", KEK_24)
row("PLAIN_7", PLAIN_7)
row("WRAPPED_7", aes_key_wrap_with_padding(KEK_24, PLAIN_7))
row("KEY", bytes(range(32)))
row("DERIVED", mac(bytes(range(32)), b"\x00\x00\x00\x01label\x00context\x00\x00\x01\x00"))
ENTROPY, NONCE, FRESH = bytes(range(32)), bytes(range(32, 48)), bytes(range(48, 80))
row("ENTROPY", ENTROPY)
row("NONCE", NONCE)
row("FRESH", FRESH)
k, v = update(bytes(32), b"\x01" * 32, ENTROPY + NONCE)
row("SEEDED_K", k)
k, v = update(k, v, FRESH)
row("RESEEDED_K", k)
row("GENERATED", mac(k, v))

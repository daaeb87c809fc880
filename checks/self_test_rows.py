#!/usr/bin/env python3
"""Writes the table of known answers, computed by Python's hashlib and hmac and by the package cryptography.

    python3 checks/self_test_rows.py > crates/self_tests/src/table.rt
    (cd crates/self_tests && rt fmt)

The answers that a standard prints are compared with it here. The generator is written out after SP 800-90A Rev. 1, 10.1.2.
"""
import hashlib
import hmac

from cryptography.hazmat.primitives.ciphers.aead import AESGCM
from cryptography.hazmat.primitives.keywrap import aes_key_wrap, aes_key_wrap_with_padding

HEAD = """//! The inputs of the known-answer tests, and what they answer: each stands here alone, and `specs/KnownAnswers` cites it. Written by
//! `checks/self_test_rows.py`, which computes each answer apart from this module.
"""


def mac(key, text):
    return hmac.new(key, text, hashlib.sha256).digest()


def update(key, value, data):
    """HMAC_DRBG_Update (10.1.2.2)."""
    key = mac(key, value + b"\x00" + data)
    value = mac(key, value)
    if data:
        key = mac(key, value + b"\x01" + data)
        value = mac(key, value)
    return key, value


def generated(entropy, nonce, fresh):
    """Instantiate, reseed and 32 bytes, with no other input (10.1.2.3 to 10.1.2.5)."""
    key, value = update(bytes(32), b"\x01" * 32, entropy + nonce)
    key, value = update(key, value, fresh)
    return mac(key, value)


def derived(key, label, context):
    """32 bytes of the counter mode over HMAC-SHA-256 (SP 800-108 Rev. 1, 4.1)."""
    return mac(key, (1).to_bytes(4, "big") + label + b"\x00" + context + (256).to_bytes(4, "big"))


def row(name, note, value, printed=None):
    if printed is not None and value != bytes.fromhex(printed):
        raise SystemExit(f"{name} isn't what the standard prints")
    print(f"/// {note}")
    print(f"pub const {name}: [u8; {len(value)}] = [" + ", ".join(f"0x{b:02x}" for b in value) + "];\n")


def text(name, note, value):
    print(f"/// {note}")
    print(f'pub const {name}: [u8; {len(value)}] = *b"{value.decode()}";\n')


def zeros(name, note, length):
    print(f"/// {note}")
    print(f"pub const {name}: [u8; {length}] = [0; {length}];\n")


def digests():
    text("HASH_TEXT", "The text of the three digests (the examples of FIPS 180-4).", b"abc")
    for name in ("256", "384", "512"):
        row(f"DIGEST_{name}", f"Its SHA-{name}.", hashlib.new(f"sha{name}", b"abc").digest())
    key, words = b"Jefe", b"what do ya want for nothing?"
    text("MAC_KEY", "The key of the three MACs (RFC 4231, 4.3).", key)
    text("MAC_TEXT", "Their text.", words)
    for name in ("256", "384", "512"):
        row(f"MAC_{name}", f"Their HMAC-SHA-{name}.", hmac.new(key, words, f"sha{name}").digest())


def sealing():
    sealed = AESGCM(bytes(32)).encrypt(bytes(12), bytes(16), None)
    zeros("GCM_KEY", "The key that seals and opens (test case 14 of McGrew and Viega's GCM).", 32)
    zeros("GCM_IV", "Its IV.", 12)
    zeros("GCM_TEXT", "Its text.", 16)
    row("GCM_CIPHERTEXT", "Its ciphertext.", sealed[:16], "cea7403d4d606b6e074ec5d3baf39d18")
    row("GCM_TAG", "Its tag.", sealed[16:], "d0d1c8a799996bf0265b98b5d48ab919")
    row("GCM_OTHER_TAG", "The tag with a bit of its last byte turned.", sealed[16:-1] + bytes([sealed[-1] ^ 1]))


def wrapping():
    kek, key = bytes(range(16)), bytes.fromhex("00112233445566778899aabbccddeeff")
    row("WRAPPING_KEY", "The key that wraps and unwraps (RFC 3394, 4.1).", kek)
    row("WRAPPED_TEXT", "What is wrapped under it.", key)
    row("WRAPPING", "Its wrapping.", aes_key_wrap(kek, key), "1fa68b0a8112b447aef34bd8fb5a7b829d3e862371d2cfe5")
    kek, key = bytes.fromhex("5840df6e29b02af1ab493b705bf16ea1ae8338f4dcc176a8"), bytes.fromhex("466f7250617369")
    row("PADDED_WRAPPING_KEY", "The key that wraps and unwraps with padding (RFC 5649, 6).", kek)
    row("PADDED_WRAPPED_TEXT", "What is wrapped under it.", key)
    row("PADDED_WRAPPING", "Its wrapping.", aes_key_wrap_with_padding(kek, key), "afbeb0f07dfbf5419200f2ccb50bb24f")


def derivation():
    key, label, context = bytes(range(32)), b"label", b"context"
    row("DERIVATION_KEY", "The key from which is derived.", key)
    text("DERIVATION_LABEL", "Its label.", label)
    text("DERIVATION_CONTEXT", "Its context.", context)
    row("DERIVED", "What is derived (SP 800-108 Rev. 1, 4.1).", derived(key, label, context))


def generator():
    entropy, nonce, fresh = bytes(range(0x20)), bytes(range(0x20, 0x30)), bytes(range(0x30, 0x50))
    row("ENTROPY", "The entropy of the generator.", entropy)
    row("NONCE", "Its nonce.", nonce)
    row("RESEED_ENTROPY", "The entropy with which it is seeded anew.", fresh)
    row("GENERATED", "What it then generates (SP 800-90A Rev. 1, 10.1.2).", generated(entropy, nonce, fresh))


print(HEAD)
digests()
sealing()
wrapping()
derivation()
generator()
row("IMAGE_KEY", "The key of the image's MAC (a rule of this project's own).", bytes(range(32)))

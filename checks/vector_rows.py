#!/usr/bin/env python3
"""Writes the vector lines of vector_suite's tests, two of each kind: one that passes, and one with another answer.

Digests and MACs come from Python's hashlib and hmac; GCM, key wrapping, key derivation in counter mode and CMAC from its
`cryptography`; the generator from drbg_rows.py and the other modes of key derivation from cmac_rows.py, which go by the
standards' formulas.

    python3 checks/vector_rows.py > crates/vector_suite/src/tests/rows.rt
    (cd crates/vector_suite && rt fmt)
"""

import hashlib
import hmac
import io
import sys
from contextlib import redirect_stdout

sys.dont_write_bytecode = True

from cryptography.hazmat.primitives import hashes
from cryptography.hazmat.primitives.ciphers.aead import AESGCM
from cryptography.hazmat.primitives.kdf.kbkdf import KBKDFHMAC, CounterLocation, Mode
from cryptography.hazmat.primitives.keywrap import aes_key_wrap, aes_key_wrap_with_padding

with redirect_stdout(io.StringIO()):
    from cmac_rows import cmac, counter, derived, feedback, pipeline
    from drbg_rows import Generator

COUNTING = bytes(range(256))
LABEL, CONTEXT = b"label", b"context"
KEYS = {size: COUNTING[:size] for size in (16, 24, 32)}
IV, AAD, TEXT = COUNTING[16:28], COUNTING[64:84], COUNTING[100:137]


def word(value):
    return value if isinstance(value, str) else value.hex() or "-"


def line(*values):
    return " ".join(word(value) for value in values)


def hmac_derived(key, length):
    kdf = KBKDFHMAC(hashes.SHA256(), Mode.CounterMode, length, 4, 4, CounterLocation.BeforeFixed, LABEL, CONTEXT, None)
    output = kdf.derive(key)
    fixed = LABEL + b"\0" + CONTEXT + (8 * length).to_bytes(4, "big")
    blocks = [hmac.digest(key, i.to_bytes(4, "big") + fixed, "sha256") for i in range(1, length // 32 + 2)]
    assert output == b"".join(blocks)[:length]
    return output


def generated(length):
    return Generator(COUNTING[:32], COUNTING[32:48], COUNTING[48:50]).generate(length)


def turned(value):
    """The value with its last bit turned."""
    return value[:-1] + bytes([value[-1] ^ 1])


def vectors():
    """For each kind what comes before OUT, OUT, what comes behind it, and another OUT."""
    rows = []

    def add(before, out, behind=(), other=None):
        rows.append((before, out, behind, turned(out) if other is None else other))

    for size in (256, 384, 512):
        add([f"sha{size}", b"abc"], hashlib.new(f"sha{size}", b"abc").digest())
        add([f"hmac{size}", b"Jefe", TEXT], hmac.digest(b"Jefe", TEXT, f"sha{size}"))
    for size, key in KEYS.items():
        sealed = AESGCM(key).encrypt(IV, TEXT, AAD)
        ciphertext, tag = sealed[:-16], sealed[-16:]
        front = tag[: size // 2] if size == 24 else tag
        add(["seal", key, IV, AAD, TEXT], ciphertext, [front])
        add(["open", key, IV, AAD, ciphertext, front], TEXT)
        add(["open", key, IV, AAD, ciphertext, turned(front)], "fail", (), TEXT)
    wrapped = aes_key_wrap(KEYS[16], TEXT[:24])
    padded = aes_key_wrap_with_padding(KEYS[24], TEXT[:7])
    add(["wrap", KEYS[16], TEXT[:24]], wrapped)
    add(["unwrap", KEYS[16], wrapped], TEXT[:24])
    add(["unwrap", KEYS[16], turned(wrapped)], "fail", (), TEXT[:24])
    add(["wrappad", KEYS[24], TEXT[:7]], padded)
    add(["unwrappad", KEYS[24], padded], TEXT[:7])
    add(["unwrappad", KEYS[24], turned(padded)], "fail", (), TEXT[:7])
    add(["derive", COUNTING[:32], LABEL, CONTEXT], hmac_derived(COUNTING[:32], 40))
    add(["drbg", COUNTING[:32], COUNTING[32:48], COUNTING[48:50]], generated(40))
    add(["cmac", KEYS[32], TEXT], cmac(KEYS[32], TEXT))
    for name, mode in (("kbcounter", counter), ("kbfeedback", feedback), ("kbpipeline", pipeline)):
        add([name, KEYS[16], LABEL, CONTEXT], derived(mode, KEYS[16], LABEL, CONTEXT, 40))
    return rows


def table(doc, name, lines):
    print(f"/// {doc}\npub(super) const {name}: [&str; {len(lines)}] = [")
    for text in lines:
        print(f'    "{text}",')
    print("];\n")


def main():
    rows = vectors()
    bytes_rows = [row for row in rows if row[1] != "fail"]
    print("//! Written by `checks/vector_rows.py`.\n")
    table("Lines whose answer is the expected one.", "PASSING", [line(*b, out, *a) for b, out, a, _ in rows])
    table("The same with another answer: the last bit turned, or bytes in place of a refusal.", "FAILING",
          [line(*b, other, *a) for b, _, a, other in rows])
    table("The same with one byte more.", "LONGER", [line(*b, out + b"\1", *a) for b, out, a, _ in bytes_rows])
    table("The same with the last byte left out. The generator's request is then for fewer bytes: its line passes, and isn't here.",
          "SHORTER", [line(*b, out[:-1], *a) for b, out, a, _ in bytes_rows if b[0] != "drbg"])
    table("A refusal where there is an answer.", "REFUSED",
          [line(*b, "fail") for b, out, _, _ in bytes_rows if b[0] in ("open", "unwrap", "unwrappad")])


if __name__ == "__main__":
    main()

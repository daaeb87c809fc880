"""Test vectors as lines, as `vectors` reads them: makes some, or tries them over Python's hashlib and cryptography.

usage: vector_peer.py make sha256|seal COUNT     writes so many lines, of a text of 64 bytes each; `seal` has a key of 32 bytes and no AAD
       vector_peer.py try                        reads lines of these two kinds, and writes the report that `vectors` writes
"""
import hashlib
import sys

from cryptography.hazmat.primitives.ciphers.aead import AESGCM

TEXT_BYTES = 64


def spelled(*parts):
    return " ".join(part.hex() or "-" for part in parts)


def digest_line(k, text):
    return "sha256 " + spelled(text, hashlib.sha256(text).digest())


def seal_line(k, text):
    key = hashlib.sha256(text).digest()
    iv = key[:12]
    sealed = AESGCM(key).encrypt(iv, text, None)
    return "seal " + spelled(key, iv, b"", text, sealed[:-16], sealed[-16:])


def make(kind, count):
    line = {"sha256": digest_line, "seal": seal_line}[kind]
    for k in range(int(count)):
        sys.stdout.write(line(k, hashlib.sha512(k.to_bytes(8, "big")).digest()[:TEXT_BYTES]) + "\n")


def bytes_of(word):
    return b"" if word == "-" else bytes.fromhex(word)


def passes(line):
    kind, *parts = line.split(" ")
    parts = [bytes_of(part) for part in parts]
    if kind == "sha256":
        text, out = parts
        return hashlib.sha256(text).digest() == out
    key, iv, aad, text, out, tag = parts
    return AESGCM(key).encrypt(iv, text, aad)[: len(text) + len(tag)] == out + tag


def try_lines():
    passed = tried = 0
    for number, line in enumerate(sys.stdin, 1):
        line = line.rstrip("\n")
        if line == "" or line.startswith("#"):
            continue
        right = passes(line)
        tried, passed = tried + 1, passed + right
        sys.stdout.write(f"{number} {'pass' if right else 'fail'}\n")
    sys.stdout.write(f"{passed} of {tried}\n")


if __name__ == "__main__":
    {"make": make, "try": try_lines}[sys.argv[1]](*sys.argv[2:])

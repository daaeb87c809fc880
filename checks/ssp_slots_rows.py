"""Prints what keys of crates/ssp_slots/src/tests.rt seal a text to, by Python's cryptography."""
from cryptography.hazmat.primitives.ciphers.aead import AESGCM

for key in (bytes(range(16)), bytes(range(32, 64))):
    print(AESGCM(key).encrypt(bytes(12), b"sixteen bytes ..", b"").hex())

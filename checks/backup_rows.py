"""Prints the backups of crates/vault_backup/src/tests.rt, by Python's hmac and cryptography."""
import hashlib
import hmac
import struct

import machine_backups
from machine_bodies import APPROVED, OTHER, Kind, fits
from machine_functions import aes, wrap

KEK = bytes(range(32))
MAC = bytes(range(32, 64))
AES, KEY_KEK, MAC_KIND, KDF = Kind


def record(slot, kind, domain, uses, text, size=None, wrapped=None):
    """The record of a slot; the length and the wrapped part may be others than the text's."""
    size, wrapped = len(text) if size is None else size, wrap(True, KEK, text) if wrapped is None else wrapped
    return machine_backups.record(slot, kind, domain, uses, size, wrapped)


def signed(front):
    return machine_backups.signed(MAC, front)


def backup(records, **others):
    return machine_backups.joined(MAC, records, **others)


def one_block(front, text, padding):
    """What is padded otherwise than with zeros: one block under the key-encryption key."""
    return aes(KEK, front + struct.pack(">I", len(text)) + text + padding)


def text_of(kind, domain, length):
    return bytes((64 * kind + 32 * domain + length + 3 * place) % 256 for place in range(length))


def uses_of(slot):
    return 1 if slot % 2 else 2**32 - 1


JEFE = b"Jefe"
ICV = bytes.fromhex("a65959a6")
GOOD = record(2, MAC_KIND, OTHER, 7, JEFE)
LONG = record(9, KDF, APPROVED, 2**32 - 1, text_of(KDF, APPROVED, 20))

print("# KEK")
print(f"const KEK: [u8; 32] = {list(KEK)};")
print("# MAC")
print(f"const MAC: [u8; 32] = {list(MAC)};")

SINGLE = {
    "NONE_KEPT": backup([]),
    "ONE_KEPT": backup([GOOD]),
    "TWO_KEPT": backup([GOOD, LONG]),
}
for name, value in SINGLE.items():
    print(f"# {name}")
    print(f'const {name}: &str = "{value.hex()}";')

NO_FORM = [
    ("other magic bytes", backup([GOOD], magic=b"SMB2")),
    ("one record more than there are", backup([GOOD], count=2)),
    ("one record fewer than there are", backup([GOOD, LONG], count=1)),
    ("seventeen records", backup([GOOD], count=17)),
    ("no record where one is", backup([GOOD], count=0)),
    ("a slot twice", backup([GOOD, GOOD])),
    ("falling slots", backup([LONG, GOOD])),
    ("slot 16", backup([record(16, MAC_KIND, OTHER, 7, JEFE)])),
    ("kind 0", backup([record(2, 0, OTHER, 7, JEFE)])),
    ("kind 5", backup([record(2, 5, OTHER, 7, JEFE)])),
    ("domain 2", backup([record(2, MAC_KIND, 2, 7, JEFE)])),
    ("no use", backup([record(2, MAC_KIND, OTHER, 0, JEFE)])),
    ("length 0", backup([record(2, MAC_KIND, OTHER, 7, JEFE, 0)])),
    ("length 0, and nothing but a semiblock", backup([record(2, MAC_KIND, OTHER, 7, JEFE, 0, bytes(8))])),
    ("length 65", backup([record(2, MAC_KIND, OTHER, 7, JEFE, 65, bytes(80))])),
    ("an AES key of 20 bytes", backup([record(2, AES, APPROVED, 7, bytes(20))])),
    ("a key-encryption key of 8 bytes", backup([record(2, KEY_KEK, OTHER, 7, bytes(8))])),
    ("an approved MAC key of 13 bytes", backup([record(2, MAC_KIND, APPROVED, 7, bytes(13))])),
    ("an approved derivation key of 13 bytes", backup([record(2, KDF, APPROVED, 7, bytes(13))])),
    ("a wrapped part of a semiblock more", backup([record(2, MAC_KIND, OTHER, 7, JEFE, 4, bytes(24))])),
    ("a wrapped part of a semiblock less", backup([record(2, MAC_KIND, OTHER, 7, bytes(9), 9, bytes(16))])),
    ("a wrapped part of a byte less", backup([record(2, MAC_KIND, OTHER, 7, JEFE, 4, bytes(15))])),
    ("a byte behind the records", backup([GOOD], more=b"\0")),
    ("a record that is cut", backup([GOOD], count=2, more=GOOD[:7])),
    ("a tag alone", signed(b"")),
]
print("# NO_FORM")
print(f"static NO_FORM: [(&str, &str); {len(NO_FORM)}] = [")
for name, value in NO_FORM:
    print(f'    ("{name}", "{value.hex()}"),')
print("];")

TURNED = bytearray(GOOD[8:])
TURNED[0] ^= 1
NO_WRAPPING = [
    ("no wrapping of a plaintext", 2, backup([record(2, MAC_KIND, OTHER, 7, JEFE, 4, bytes(16))])),
    ("a bit turned", 2, backup([record(2, MAC_KIND, OTHER, 7, JEFE, 4, bytes(TURNED))])),
    ("a parameter of 5 bytes where 4 are told", 2, backup([record(2, MAC_KIND, OTHER, 7, b"Jefes", 4)])),
    ("a parameter of 8 bytes where 4 are told", 2, backup([record(2, MAC_KIND, OTHER, 7, bytes(8), 4)])),
    ("padding that isn't zero", 2, backup([record(2, MAC_KIND, OTHER, 7, JEFE, 4, one_block(ICV, JEFE, b"\0\0\0\1"))])),
    ("another check value", 2, backup([record(2, MAC_KIND, OTHER, 7, JEFE, 4, one_block(bytes(4), JEFE, bytes(4)))])),
    ("in the second record", 9, backup([GOOD, record(9, KDF, APPROVED, 1, bytes(20), 20, bytes(32))])),
    ("in both records", 2, backup([record(2, MAC_KIND, OTHER, 7, JEFE, 4, bytes(16)), record(9, KDF, APPROVED, 1, bytes(20), 20, bytes(32))])),
]
print("# NO_WRAPPING")
print(f"static NO_WRAPPING: [(&str, u8, &str); {len(NO_WRAPPING)}] = [")
for name, slot, value in NO_WRAPPING:
    print(f'    ("{name}", {slot}, "{value.hex()}"),')
print("];")

print("# OTHER_TAGS")
OTHER_TAGS = [
    ("all but the head", GOOD + LONG),
    ("the head alone", b"SMB1\2"),
    ("all of it under the other key", None),
]
front = b"SMB1\2" + GOOD + LONG
print(f"static OTHER_TAGS: [(&str, &str); {len(OTHER_TAGS)}] = [")
for name, text in OTHER_TAGS:
    tag = hmac.new(KEK, front, hashlib.sha256) if text is None else hmac.new(MAC, text, hashlib.sha256)
    print(f'    ("{name}", "{(front + tag.digest()).hex()}"),')
print("];")

# Every kind, domain and length that fits, sixteen slots at a time: how long the backup is, and its tag.
combinations = [
    (kind, domain, length)
    for kind in (AES, KEY_KEK, MAC_KIND, KDF)
    for domain in (OTHER, APPROVED)
    for length in range(1, 65)
    if fits(kind, domain, length)
]
groups = [combinations[at:at + 16] for at in range(0, len(combinations), 16)]
print("# ALL_THAT_FIT")
print(f"static ALL_THAT_FIT: [(usize, &str); {len(groups)}] = [")
for group in groups:
    whole = backup([
        record(slot, kind, domain, uses_of(slot), text_of(kind, domain, length))
        for slot, (kind, domain, length) in enumerate(group)
    ])
    print(f'    ({len(whole)}, "{whole[-32:].hex()}"),')
print("];")

longest = backup([record(slot, MAC_KIND, APPROVED, uses_of(slot), text_of(MAC_KIND, APPROVED, 64)) for slot in range(16)])
print("# LONGEST")
print(f'const LONGEST: (usize, &str) = ({len(longest)}, "{longest[-32:].hex()}");')

#!/usr/bin/env python3
"""Reads a backup that the program's word `backup` wrote, and tells what is in it: see docs/INTERFACE.md, Backup and restore.

    tools/read_backup.py [--with-keys] KEYS BACKUP

KEYS is the file of 64 bytes that the backup was made with. Each record is told in words; with `--with-keys` each key's bytes stand behind it,
in hex. Nothing of the module is used for it: the form is read here, the tag is made by Python's hmac, and keys are unwrapped as SP 800-38F says,
with the block cipher of the package `cryptography`.

The exit status is 0 where the backup is right, 1 where it isn't (the first mistake is told on standard error), and 2 where that can't be said,
since a file can't be read, KEYS hasn't 64 bytes, or `cryptography` isn't here.
"""
import hashlib
import hmac
import os
import sys

KEY_LENGTH = 32
MAGIC = b"SMB1"
FRONT, TAG = len(MAGIC) + 1, 32
LEAST, MOST = 37, 1_317
RECORD_FRONT = 8
SLOTS = 16
KINDS = {1: "AES key", 2: "wrapping key", 3: "MAC key", 4: "derivation key"}
AES_KINDS, AES_LENGTHS = (1, 2), (16, 24, 32)
DOMAINS = {0: "Other", 1: "Approved"}
LEAST_APPROVED, LONGEST = 14, 64
SEMIBLOCK, CONSTANT = 8, bytes.fromhex("a65959a6")


class Wrong(Exception):
    """The backup isn't right."""


class Unable(Exception):
    """It can't be said whether the backup is right."""


def need(holds, otherwise):
    if not holds:
        raise Wrong(otherwise)


def content(path):
    try:
        with open(path, "rb") as file:
            return file.read()
    except OSError as error:
        raise Unable(f"{path}: {error.strerror}") from None


def block_cipher(key):
    """AES's inverse cipher under a key, of one block."""
    try:
        from cryptography.hazmat.primitives.ciphers import Cipher, algorithms, modes
    except ImportError:
        raise Unable("Python's package `cryptography` isn't here, so no key can be unwrapped") from None
    decryptor = Cipher(algorithms.AES(key), modes.ECB()).decryptor()
    return decryptor.update


def unwrapped(deciphered, wrapped):
    """The semiblocks that are wrapped, the first of which tells the length (SP 800-38F, 6.1 and 6.3)."""
    if len(wrapped) == 2 * SEMIBLOCK:
        return deciphered(wrapped)
    first, *others = [wrapped[at : at + SEMIBLOCK] for at in range(0, len(wrapped), SEMIBLOCK)]
    for step in range(6 * len(others), 0, -1):
        place = (step - 1) % len(others)
        counted = int.from_bytes(first, "big") ^ step
        block = deciphered(counted.to_bytes(SEMIBLOCK, "big") + others[place])
        first, others[place] = block[:SEMIBLOCK], block[SEMIBLOCK:]
    return first + b"".join(others)


def parameter(deciphered, wrapped, length):
    """The key of this length that these bytes are the wrapping of; none where there is none."""
    found = unwrapped(deciphered, wrapped)
    key, padding = found[SEMIBLOCK : SEMIBLOCK + length], found[SEMIBLOCK + length :]
    right = found[:SEMIBLOCK] == CONSTANT + length.to_bytes(4, "big") and padding == bytes(len(padding))
    return key if right else None


def fits(kind, domain, length):
    if kind in AES_KINDS:
        return length in AES_LENGTHS
    return (LEAST_APPROVED if DOMAINS[domain] == "Approved" else 1) <= length <= LONGEST


class Record:
    def __init__(self, front, place):
        self.slot, self.kind, self.domain, self.length = front[0], front[1], front[2], front[7]
        self.uses = int.from_bytes(front[3:7], "big")
        at = f"the record at byte {place}"
        need(self.slot < SLOTS, f"{at} is of slot {self.slot}")
        need(self.kind in KINDS, f"{at} is of kind {self.kind}")
        need(self.domain in DOMAINS, f"{at} is of domain {self.domain}")
        need(self.uses >= 1, f"{at} has no use left")
        need(fits(self.kind, self.domain, self.length), f"{at} tells a length of {self.length}, which a {KINDS[self.kind]} there hasn't")
        self.wrapped_length = (self.length + 7) // 8 * 8 + SEMIBLOCK

    def in_words(self):
        size = f"{self.length} byte{'' if self.length == 1 else 's'}"
        return f"slot {self.slot}: {KINDS[self.kind]} of {size}, domain {DOMAINS[self.domain]}, uses left: {self.uses}"


def records_of(backup):
    """The records of a backup's form, each with its wrapped part."""
    need(LEAST <= len(backup) <= MOST, f"it has {len(backup)} bytes, and a backup has {LEAST} to {MOST:,}")
    need(backup.startswith(MAGIC), f"it begins with {backup[: len(MAGIC)].hex()} in place of {MAGIC.hex()}")
    count, place, end, least = backup[len(MAGIC)], FRONT, len(backup) - TAG, 0
    found = []
    for number in range(1, count + 1):
        need(end - place >= RECORD_FRONT, f"it ends in record {number} of {count}")
        record = Record(backup[place : place + RECORD_FRONT], place)
        need(record.slot >= least, f"slot {record.slot} stands behind slot {least - 1}")
        place, least = place + RECORD_FRONT, record.slot + 1
        need(end - place >= record.wrapped_length, f"it ends in record {number} of {count}")
        found.append((record, backup[place : place + record.wrapped_length]))
        place += record.wrapped_length
    need(place == end, f"{end - place} bytes stand behind the last record")
    return found


def need_tag(mac, backup):
    made = hmac.new(mac, backup[:-TAG], hashlib.sha256).digest()
    need(hmac.compare_digest(made, backup[-TAG:]), "its tag is another: it was changed, or made under another MAC key")


def told(keys, backup, with_keys):
    """A line for each record of a backup that is right."""
    records = records_of(backup)
    need_tag(keys[KEY_LENGTH:], backup)
    deciphered, lines = block_cipher(keys[:KEY_LENGTH]), []
    for record, wrapped in records:
        key = parameter(deciphered, wrapped, record.length)
        need(key is not None, f"slot {record.slot}: what is wrapped is no key of {record.length} bytes under this key")
        lines.append(record.in_words() + (f", {key.hex()}" if with_keys else ""))
    return lines


def in_words(backup, lines):
    return [f"a backup of {len(backup):,} bytes, slots kept: {len(lines)}", *lines]


def main(words):
    with_keys = words[:1] == ["--with-keys"]
    names = words[1:] if with_keys else words
    if len(names) != 2 or any(name.startswith("-") for name in names):
        print(__doc__, file=sys.stderr, end="")
        return 2
    try:
        keys, backup = map(content, names)
        if len(keys) != 2 * KEY_LENGTH:
            raise Unable(f"{names[0]}: it has {len(keys)} bytes in place of {2 * KEY_LENGTH}")
        lines = told(keys, backup, with_keys)
    except Unable as fault:
        print(f"read_backup: {fault}", file=sys.stderr)
        return 2
    except Wrong as fault:
        print(f"read_backup: {names[1]}: {fault}", file=sys.stderr)
        return 1
    print("\n".join(in_words(backup, lines)))
    return 0


if __name__ == "__main__":
    try:
        sys.exit(main(sys.argv[1:]))
    except BrokenPipeError:
        # so that Python doesn't complain as it ends
        os.dup2(os.open(os.devnull, os.O_WRONLY), sys.stdout.fileno())
        sys.exit(1)

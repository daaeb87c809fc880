"""An independent model of backups: the bytes that slots are kept as, and what becomes of bytes that are restored. It is written from their
description and not from the sources, over Python's hmac and the package `cryptography`.
"""
import struct

import machine_functions as functions
from machine import Slot
from machine_bodies import Kind, fits

KEY = 32
KEYS = 2 * KEY
MAGIC = b"SMB1"
TAG = 32
LARGEST_BACKUP = 1_317


class BadBackup(Exception):
    """Why bytes aren't restored: `form`, `tag`, or `wrapped` or `occupied` with the number of a slot."""

    def __init__(self, reason):
        super().__init__(reason)
        self.reason = reason


def need(holds, reason):
    if not holds:
        raise BadBackup(reason)


def halves(keys):
    """The key that wraps, and the one that makes the tag."""
    return keys[:KEY], keys[KEY:]


def record(slot, kind, domain, uses, length, wrapped):
    """The record of a slot. Its fields may be any."""
    return struct.pack(">BBBIB", slot, kind, domain, uses, length) + wrapped


def signed(mac, front):
    return front + functions.hmac(1, mac, front)


def joined(mac, records, count=None, magic=MAGIC, more=b""):
    """A backup of these records; another number of them may be told, another beginning, and bytes more behind them."""
    return signed(mac, magic + bytes([len(records) if count is None else count]) + b"".join(records) + more)


def is_kept(slot):
    return slot is not None and slot.export == 1 and slot.uses >= 1


def backup_of(slots, keys):
    """The backup of these slots under the two keys."""
    kek, mac = halves(keys)
    kept = [(number, slot) for number, slot in enumerate(slots) if is_kept(slot)]
    return joined(mac, [record(number, s.kind, s.domain, s.uses, len(s.key), functions.wrap(True, kek, s.key)) for number, s in kept])


def wrapped_length(length):
    return (length + 7) // 8 * 8 + 8


def records_of(backup):
    """The fields and the wrapped part of each record, with no look at a key."""
    need(len(backup) >= len(MAGIC) + 1 + TAG and backup.startswith(MAGIC), "form")
    rest, found, least = backup[len(MAGIC) + 1 : -TAG], [], 0
    for _ in range(backup[len(MAGIC)]):
        need(len(rest) >= 8, "form")
        slot, kind, domain, uses, length = struct.unpack(">BBBIB", rest[:8])
        end = 8 + wrapped_length(length)
        need(least <= slot <= 15 and kind in list(Kind) and domain in (0, 1) and uses >= 1, "form")
        need(fits(kind, domain, length) and len(rest) >= end, "form")
        found.append(((slot, kind, domain, uses, length), rest[8:end]))
        rest, least = rest[end:], slot + 1
    need(rest == b"", "form")
    return found


def restored(slots, keys, backup):
    """The slots after a backup is restored into them; BadBackup where it is refused."""
    kek, mac = halves(keys)
    records = records_of(backup)
    need(signed(mac, backup[:-TAG]) == backup, "tag")
    found = {}
    for (slot, kind, domain, uses, length), wrapped in records:
        key = functions.unwrap(True, kek, wrapped)
        need(key is not None and len(key) == length, f"wrapped {slot}")
        found[slot] = Slot(Kind(kind), domain, 1, uses, key)
    for slot in found:
        need(slots[slot] is None, f"occupied {slot}")
    return [found.get(number, slot) for number, slot in enumerate(slots)]

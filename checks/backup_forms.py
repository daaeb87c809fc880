"""Runs over backups of which each has a mistake or none, and over words and files that are refused before a backup is looked at."""
from backup_parts import (
    A_SLOT,
    GOOD,
    GOOD_AND_BAD,
    JEFE,
    KEK,
    KEY_BYTES,
    LONGEST,
    MAC,
    MAC_OF_ZERO,
    MOST_USES,
    NO_SLOT,
    OTHER_KEK,
    OTHER_MAC,
    PARTS,
    SHOW_SLOT_2,
    SLOT_2,
    TOO_LONG,
    Run,
    backups_named,
    kept,
    key_of,
    wrapped,
)
from line_parts import Surprise, counted
from machine_backups import MAGIC, BadBackup, joined, record, restored, signed
from machine_bodies import Kind, fits
from machine_functions import aes
from machine_lines import BAD_DIGEST
from machine_words import BAD_BACKUP, BAD_KEYS, FILE_FAILED, USAGE

FULL = kept(9, Kind.KDF, counted(20), 1, MOST_USES)


def reason_of(backup):
    """Why the model refuses a backup; none where it restores it."""
    try:
        restored([None] * 16, KEY_BYTES, backup)
    except BadBackup as bad:
        return bad.reason
    return None


def over(name, rows):
    """Runs over backups, each with the reason for which it is refused, or none."""
    for backup, reason in rows:
        if reason_of(backup) != reason:
            raise Surprise(f"{name}: {reason_of(backup)} in place of {reason} for {backup.hex()}")
    return Run(SLOT_2, backups_named(name), [SHOW_SLOT_2], [backup for backup, _ in rows], [BAD_BACKUP if reason else 0 for _, reason in rows])


def form_where(holds):
    return "form" if holds else None


def turned(backup, place, bit):
    return backup[:place] + bytes([backup[place] ^ 1 << bit]) + backup[place + 1 :]


def breaks_form(place, bit):
    """Whether a bit of the 61 bytes makes another form of them: of the first five, of slot 2, of kind and domain, or of length 4."""
    slot, length = 2 ^ 1 << bit, 4 ^ 1 << bit
    return place < 5 or (place == 5 and slot > 15) or place in (6, 7) or (place == 12 and not 1 <= length <= 8)


def one_bit_turned():
    """Each bit of a backup of one slot."""
    rows = [(turned(A_SLOT, place, bit), "form" if breaks_form(place, bit) else "tag") for place in range(61) for bit in range(8)]
    return over("one_bit_turned", rows)


def other_lengths():
    """Each beginning of a backup, and some bytes more or fewer than the shortest and the longest have."""
    rows = [(A_SLOT[:end], form_where(end < 61)) for end in range(62)] + [(A_SLOT + b"\n", "form"), (b"\n" + A_SLOT, "form")]
    rows += [(NO_SLOT[:-1], "form"), (NO_SLOT[1:], "form"), (NO_SLOT, None), (NO_SLOT + b"\0", "form"), (b"\0" + NO_SLOT, "form")]
    rows += [(LONGEST[:-1], "form"), (LONGEST[1:], "form"), (LONGEST, None), (bytes(36), "form"), (bytes(37), "form"), (bytes(1_317), "form")]
    return over("other_lengths", rows)


def no_number():
    """36 bytes, the magic bytes and their tag, of which the first byte is a zero: no number of records stands there."""
    return Run(SLOT_2, ("restore", "keys_of_zero", "no_number", *PARTS), [SHOW_SLOT_2], [signed(MAC_OF_ZERO, MAGIC)], [BAD_BACKUP])


def too_long():
    """More bytes than any backup has."""
    return Run(SLOT_2, backups_named("too_long"), [SHOW_SLOT_2], TOO_LONG, [BAD_BACKUP] * len(TOO_LONG))


def one(slot=2, kind=Kind.MAC, domain=0, uses=7, length=4, part=None):
    """A backup of one record. Where another length is told, this is the wrapping of a key of so many bytes."""
    return joined(MAC, [record(slot, kind, domain, uses, length, wrapped((JEFE * 16)[:length]) if part is None else part)])


def fields():
    """Slot, kind, domain and uses at their edges, under a right tag."""
    rows = [(one(slot=slot), form_where(slot > 15)) for slot in (*range(19), 31, 32, 128, 255)]
    rows += [(one(kind=kind, length=16), form_where(not 1 <= kind <= 4)) for kind in (*range(7), 128, 255)]
    rows += [(one(domain=domain, length=16), form_where(domain > 1)) for domain in (*range(5), 128, 255)]
    rows += [(one(uses=uses), form_where(uses == 0)) for uses in (0, 1, 255, 256, 2**16, 2**24, 2**31, MOST_USES)]
    return over("fields", rows)


def lengths():
    """Each length up to 66, and some more, for each kind in each domain."""
    rows = []
    for kind in Kind:
        for domain in (0, 1):
            for length in (*range(67), 72, 128, 255):
                part = wrapped(key_of(kind, domain, length)) if length else bytes(8)
                rows.append((one(2, kind, domain, 7, length, part), form_where(not fits(kind, domain, length))))
    return over("lengths", rows)


def other_forms():
    """What stands before, between and behind the records, their number and their order."""
    rows = [(joined(MAC, [GOOD], magic=magic), "form") for magic in (b"SMB0", b"SMB2", b"smb1", b"1BMS", b"SMB", b"SMB1\0", bytes(4))]
    rows += [(joined(MAC, [GOOD], count), form_where(count != 1)) for count in (0, 1, 2, 3, 15, 16, 17, 128, 255)]
    rows += [(joined(MAC, [GOOD, FULL], count), form_where(count != 2)) for count in (0, 1, 2, 3)]
    rows += [(joined(MAC, [], count), form_where(count != 0)) for count in (0, 1, 16, 255)]
    many = [kept(slot, Kind.MAC, JEFE) for slot in range(17)]
    rows += [(joined(MAC, many[:16]), None), (joined(MAC, many), "form"), (joined(MAC, many[:16], 15), "form"), (joined(MAC, many, 16), "form")]
    for order in ((2, 2), (3, 2), (0, 1, 2, 4, 5, 3), (1, 2, 2, 3), (5, 0), (15, 0, 1), (15, 15)):
        rows.append((joined(MAC, [many[slot] for slot in order]), "form"))
    rows += [(joined(MAC, [many[slot] for slot in order]), None) for order in ((2, 3), (0, 15), (1, 3, 5, 7))]
    rows += [(joined(MAC, [GOOD], more=more), "form") for more in (b"\0", bytes(8), bytes(24), GOOD)]
    rows += [(joined(MAC, [GOOD], 2, more=FULL[:end]), form_where(end < len(FULL))) for end in range(len(FULL) + 1)]
    rows += [(signed(MAC, front), "form") for front in (b"", b"S", b"SMB1", b"SMB1\1", b"SMB2\0")]
    return over("other_forms", rows)


def wrapped_parts():
    """Wrapped parts of other lengths than the record's length tells."""
    rows = [(one(part=bytes(length)), "form") for length in (*range(16), *range(17, 41), 64, 72, 80)]
    rows += [(one(length=9, part=wrapped(JEFE)), "form"), (one(length=8, part=wrapped(bytes(9))), "form")]
    rows += [(one(kind=Kind.AES, length=16, part=wrapped(bytes(24))), "form"), (one(kind=Kind.AES, length=24, part=wrapped(bytes(16))), "form")]
    return over("wrapped_parts", rows)


CONSTANT = bytes.fromhex("a65959a6")


def block(constant, length, padded):
    """What KWP makes of up to eight bytes: one block, of a constant, the length in four bytes, and the padded key."""
    return aes(KEK, constant + length.to_bytes(4, "big") + padded)


def no_wrapping():
    """Wrapped parts under a right tag that are the wrapping of nothing, or of a key of another length."""
    zeros = bytes(4)
    rows = [(one(part=part), None) for part in (wrapped(JEFE), block(CONSTANT, 4, JEFE + zeros))]
    wrong = [bytes(16), wrapped(JEFE, OTHER_KEK), bytes(8) + JEFE + zeros]
    wrong += [wrapped(key) for key in (b"J", b"Jef", b"Jefe\0", b"Jefes", bytes(8))]
    wrong += [block(CONSTANT, 4, JEFE + padding) for padding in (b"\0\0\0\1", b"\1\0\0\0", b"\x80\0\0\0", b"\4\4\4\4")]
    wrong += [block(constant, 4, JEFE + zeros) for constant in (zeros, b"\xa6\x59\x59\xa7", b"\xa6" * 4, b"\x59\xa6\xa6\x59")]
    wrong += [block(CONSTANT, length, JEFE + zeros) for length in (0, 3, 5, 8, 9, 4 * 2**24, MOST_USES)] + [aes(KEK, b"\xa6" * 8 + JEFE + zeros)]
    wrong += [turned(wrapped(JEFE), bit // 8, bit % 8) for bit in range(0, 128, 5)]
    rows += [(one(part=part), "wrapped 2") for part in wrong]
    rows += [(one(length=64, part=turned(wrapped(bytes(64)), place, 0)), "wrapped 2") for place in range(72)]
    good = {slot: kept(slot, Kind.AES, counted(24)) for slot in (1, 3, 15)}
    bad = {slot: record(slot, Kind.AES, 0, 7, 24, bytes(32)) for slot in good}
    for first in good:
        rows.append((joined(MAC, [(bad if slot == first else good)[slot] for slot in good]), f"wrapped {first}"))
        rows.append((joined(MAC, [(bad if slot >= first else good)[slot] for slot in good]), f"wrapped {first}"))
    return over("no_wrapping", rows)


def other_tags():
    """Tags of other bytes and under other keys, and tags that are changed."""
    front, tag = A_SLOT[:-32], A_SLOT[-32:]
    wrong = [signed(MAC, text)[-32:] for text in (b"", front[:5], front[5:], front[:-1], front + b"\0", GOOD, A_SLOT, NO_SLOT[:-32])]
    wrong += [signed(key, front)[-32:] for key in (KEK, OTHER_MAC, b"", KEY_BYTES, MAC[:31], MAC + b"\1")]
    wrong += [bytes(32), tag[::-1], tag[16:] + tag[:16], bytes(31) + tag[31:], tag[:16] + bytes(16), tag[:31] + bytes([255 - tag[31]])]
    rows = [(A_SLOT, None), (tag + front, "form")] + [(front + other, "tag") for other in wrong]
    # The form is looked at before the tag, and the tag before what is wrapped.
    rows += [(joined(OTHER_MAC, [GOOD], 2), "form"), (joined(OTHER_MAC, [record(2, Kind.MAC, 0, 7, 4, bytes(16))]), "tag")]
    return over("other_tags", rows)


def other_keys():
    """Backups under other keys. Nothing is wrapped in one of no slot, so there another key that wraps makes no difference."""
    for keys, of_none in (("other_keys", BAD_BACKUP), ("keys_with_another_kek", 0), ("keys_with_another_mac", BAD_BACKUP), ("keys_exchanged", BAD_BACKUP)):
        words = ("restore", keys, "under_other_keys", *PARTS)
        yield Run(SLOT_2, words, [SHOW_SLOT_2], [NO_SLOT, A_SLOT, LONGEST], [of_none, BAD_BACKUP, BAD_BACKUP])


def refused(words, status):
    """Words that are refused, whatever their backups are."""
    backups = {"good_and_bad": GOOD_AND_BAD, "too_long": TOO_LONG}.get(words[2] if words[:1] == ("restore",) and len(words) > 2 else None, [None])
    return Run(SLOT_2, words, [SHOW_SLOT_2], backups, [status] * len(backups))


def no_forms():
    """Words of no form: no file is looked at."""
    no_image, kept_words = ("image_that_is_not_there", "digest", "noise"), ("keys", "good_and_bad")
    words = [("backup", *some) for some in ((), ("keys",), PARTS, ("keys", *PARTS, "more"), ("keys", *no_image, "more"))]
    words += [("restore", *some) for some in ((), ("keys",), kept_words, (*kept_words, *PARTS[:2]), (*kept_words, *PARTS, "more"))]
    words += [(name, "keys", *PARTS) for name in ("Backup", "backups", "back", "-")]
    words += [(name, *kept_words, *PARTS) for name in ("Restore", "restored", "backup")]
    return [refused(each, USAGE) for each in words]


WRONG_KEYS = ("keys_of_0", "keys_of_32", "keys_of_63", "keys_and_a_line_feed", "keys_in_hex", "noise")


def refused_files():
    """Files that aren't there or not of their form, in the order in which they are looked at: image, digest, keys, backup, noise."""
    rows = [("no_image", "digest_empty", "keys_of_63", "no_noise", FILE_FAILED), ("image", "no_digest", "keys_of_63", "no_noise", FILE_FAILED)]
    rows += [("image", digest, "no_keys", "no_noise", BAD_DIGEST) for digest in ("digest_empty", "digest_of_63_digits", "image")]
    rows += [("image", "digest_empty", "keys_of_63", "noise", BAD_DIGEST), ("image", "digest", "no_keys", "no_noise", FILE_FAILED)]
    rows += [(image, "digest", keys, noise, BAD_KEYS) for keys in WRONG_KEYS for image, noise in (("image", "no_noise"), ("image_changed", "noise"))]
    rows += [("image", "digest", "keys", "no_noise", FILE_FAILED)]
    for image, digest, keys, noise, status in rows:
        yield refused(("backup", keys, image, digest, noise), status)
        for backups in ("good_and_bad", "no_backup", "too_long"):
            at_backup = {"no_backup": FILE_FAILED, "too_long": BAD_BACKUP}.get(backups, status) if keys == "keys" else status
            yield refused(("restore", keys, backups, image, digest, noise), at_backup)
    yield refused(("restore", "keys", "no_backup", *PARTS), FILE_FAILED)
    yield refused(("restore", "keys", "too_long", "image_changed", "digest", "noise"), BAD_BACKUP)


FORMS = (
    one_bit_turned, other_lengths, no_number, too_long, fields, lengths, other_forms, wrapped_parts, no_wrapping, other_tags, other_keys, no_forms, refused_files,
)

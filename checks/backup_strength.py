#!/usr/bin/env python3
"""Whether the stored runs of backup_program tell the models from models with one mistake: each is to answer at least one run otherwise.

    python3 checks/backup_strength.py     tries every mistake; says which run tells it, and fails where none does
"""
import sys

import backup_runs
from backup_parts import FILES
from machine_words import run
from model_mistakes import BACKUPS, WORDS, try_all

JOINED = "signed(mac, magic + bytes([len(records) if count is None else count]) + b\"\".join(records) + more)"
RECORD = "struct.pack(\">BBBIB\", slot, kind, domain, uses, length) + wrapped"
KEPT = "    return slot is not None and slot.export == 1 and slot.uses >= 1"
WRAPPED = "functions.wrap(True, kek, s.key)) for"
FRONT = "need(len(backup) >= len(MAGIC) + 1 + TAG and backup.startswith(MAGIC), \"form\")"
FIELDS = "need(least <= slot <= 15 and kind in list(Kind) and domain in (0, 1) and uses >= 1, \"form\")"
FITS = "need(fits(kind, domain, length) and len(rest) >= end, \"form\")"
TAG = "    need(signed(mac, backup[:-TAG]) == backup, \"tag\")\n"
SAME_LENGTH = "need(key is not None and len(key) == length, f\"wrapped {slot}\")"
SLOT = "Slot(Kind(kind), domain, 1, uses, key)"
NOT_OFFICER = "    refuse_where(machine.state != State.OFFICER, NOT_OFFICER)\n    return 0, backup_of"
LOOK_AT_BOTH = "[(look_at_keys, keys), (look_at_backup, kept)]"
REFUSED = "    except BadBackup:\n        return BAD_BACKUP, b\"\"\n"
BAD_LINE = "    if status == BAD_LINE:\n        return status, lines_of(replies)[-1] + b\"\\n\"\n"
NOISE = "    refuse_where(names[2] not in files, FILE_FAILED)\n    return image"
LOOK = "    for look, name in others:\n        look(name, files)\n"

# The name of a mistake, and the text of the model that it exchanges.
MISTAKES = [
    # What a backup is.
    ("other magic bytes", BACKUPS, "MAGIC = b\"SMB1\"", "MAGIC = b\"SMB2\""),
    ("the number of records has two bytes", BACKUPS, JOINED, JOINED.replace("bytes([", "bytes([0, ")),
    ("the number of records isn't told", BACKUPS, JOINED, JOINED.replace("bytes([len(records) if count is None else count])", "b\"\"")),
    ("sixteen is told for any number", BACKUPS, JOINED, JOINED.replace("len(records) if", "16 if")),
    ("records in falling order", BACKUPS, JOINED, JOINED.replace("join(records)", "join(reversed(records))")),
    ("uses are turned round", BACKUPS, RECORD, "struct.pack(\">BBB\", slot, kind, domain) + struct.pack(\"<I\", uses) + bytes([length]) + wrapped"),
    ("uses have two bytes", BACKUPS, RECORD, "struct.pack(\">BBBHB\", slot, kind, domain, uses % 2**16, length) + wrapped"),
    ("kind and domain are exchanged", BACKUPS, RECORD, RECORD.replace("kind, domain", "domain, kind")),
    ("the length stands before the uses", BACKUPS, RECORD, "struct.pack(\">BBBBI\", slot, kind, domain, length, uses) + wrapped"),
    ("slots count from 1", BACKUPS, RECORD, RECORD.replace("slot,", "slot + 1,")),
    ("the length is that of what is wrapped", BACKUPS, RECORD, RECORD.replace("length)", "len(wrapped))")),
    ("the tag is cut", BACKUPS, "    return front + functions.hmac(1, mac, front)", "    return front + functions.hmac(1, mac, front)[:16]"),
    ("the tag leaves out the head", BACKUPS, "    return front + functions.hmac(1, mac, front)", "    return front + functions.hmac(1, mac, front[5:])"),
    ("the tag stands in front", BACKUPS, "    return front + functions.hmac(1, mac, front)", "    return functions.hmac(1, mac, front) + front"),
    ("the tag is made with SHA-512", BACKUPS, "    return front + functions.hmac(1, mac, front)", "    return front + functions.hmac(3, mac, front)[:32]"),
    ("the tag is made with the key that wraps", BACKUPS, "    kek, mac = halves(keys)\n    kept =", "    kek, mac = keys[:KEY], keys[:KEY]\n    kept ="),
    ("the keys are exchanged", BACKUPS, "return keys[:KEY], keys[KEY:]", "return keys[KEY:], keys[:KEY]"),
    ("the key that wraps has 16 bytes", BACKUPS, "return keys[:KEY], keys[KEY:]", "return keys[:16], keys[KEY:]"),
    ("whole keys are wrapped without padding", BACKUPS, WRAPPED, "functions.wrap(len(s.key) % 8 != 0 or len(s.key) < 16, kek, s.key)) for"),
    ("a key that may not leave is kept", BACKUPS, KEPT, KEPT.replace("slot.export == 1 and ", "")),
    ("a spent key is kept", BACKUPS, KEPT, KEPT.replace(" and slot.uses >= 1", "")),
    ("a key with its last use isn't kept", BACKUPS, KEPT, KEPT.replace(">= 1", "> 1")),
    ("approved keys alone are kept", BACKUPS, KEPT, KEPT + " and slot.domain == 1"),
    ("slot 15 isn't kept", BACKUPS, "for number, slot in enumerate(slots) if is_kept", "for number, slot in enumerate(slots[:15]) if is_kept"),
    ("slot 0 isn't kept", BACKUPS, "for number, slot in enumerate(slots) if is_kept", "for number, slot in enumerate(slots) if number and is_kept"),
    # What is refused.
    ("a backup of no slot is too short", BACKUPS, FRONT, FRONT.replace(">= len(MAGIC)", "> len(MAGIC)")),
    ("a length isn't looked at", BACKUPS, FRONT, "need(backup.startswith(MAGIC) and len(backup) > 4, \"form\")"),
    ("magic bytes aren't looked at", BACKUPS, FRONT, FRONT.replace(" and backup.startswith(MAGIC)", "")),
    ("three magic bytes are looked at", BACKUPS, FRONT, FRONT.replace("backup.startswith(MAGIC)", "backup.startswith(MAGIC[:3])")),
    ("a slot may stand twice", BACKUPS, "rest, least = rest[end:], slot + 1", "rest, least = rest[end:], slot"),
    ("slots may stand in any order", BACKUPS, "rest, least = rest[end:], slot + 1", "rest, least = rest[end:], 0"),
    ("no slot may be left out", BACKUPS, FIELDS, FIELDS.replace("least <= slot <= 15", "least == slot <= 15")),
    ("slot 16 is one", BACKUPS, FIELDS, FIELDS.replace("slot <= 15", "slot <= 16")),
    ("slot 15 is none", BACKUPS, FIELDS, FIELDS.replace("slot <= 15", "slot <= 14")),
    ("slots are counted modulo 16", BACKUPS, FIELDS, "slot %= 16\n        " + FIELDS),
    ("kind 5 is one", BACKUPS, FIELDS, "kind = 4 if kind == 5 else kind\n        " + FIELDS),
    ("kind 0 is one", BACKUPS, FIELDS, "kind = kind or 3\n        " + FIELDS),
    ("domain 2 is one", BACKUPS, FIELDS, "domain %= 2\n        " + FIELDS),
    ("no use is left", BACKUPS, FIELDS, FIELDS.replace(" and uses >= 1", "")),
    ("one use is too few", BACKUPS, FIELDS, FIELDS.replace("uses >= 1", "uses > 1")),
    ("uses stop at 2^31", BACKUPS, FIELDS, FIELDS.replace("uses >= 1", "2**31 >= uses >= 1")),
    ("a length is free", BACKUPS, FITS, FITS.replace("fits(kind, domain, length)", "1 <= length <= 64")),
    ("a length fits in either domain", BACKUPS, FITS, FITS.replace("fits(kind, domain, length)", "fits(kind, 0, length)")),
    ("an approved length fits alone", BACKUPS, FITS, FITS.replace("fits(kind, domain, length)", "fits(kind, 1, length)")),
    ("a length of 65 bytes fits", BACKUPS, FITS, FITS.replace("fits(kind, domain, length)", "(fits(kind, domain, length) or (kind > 2 and length == 65))")),
    ("bytes may stand behind the records", BACKUPS, "    need(rest == b\"\", \"form\")\n", ""),
    ("a wrapped part may be cut", BACKUPS, FITS, FITS.replace(" and len(rest) >= end", "")),
    ("a wrapped part has eight bytes more", BACKUPS, "return (length + 7) // 8 * 8 + 8", "return length // 8 * 8 + 16"),
    ("the tag isn't compared", BACKUPS, TAG, ""),
    ("the last byte of the tag isn't compared", BACKUPS, TAG, "    need(signed(mac, backup[:-TAG])[:-1] == backup[:-1], \"tag\")\n"),
    ("the first byte of the tag isn't compared", BACKUPS, TAG, "    need(signed(mac, backup[:-TAG])[-31:] == backup[-31:], \"tag\")\n"),
    ("a tag of zeros is right", BACKUPS, TAG, "    need(signed(mac, backup[:-TAG]) == backup or backup[-TAG:] == bytes(TAG), \"tag\")\n"),
    ("a parameter of another length is taken", BACKUPS, SAME_LENGTH, SAME_LENGTH.replace(" and len(key) == length", "")),
    ("a longer parameter is cut", BACKUPS, SAME_LENGTH, "need(key is not None and len(key) >= length, \"wrapped\")\n        key = key[:length]"),
    ("what has no wrapping is left out", BACKUPS, SAME_LENGTH, "if key is None or len(key) != length:\n            continue"),
    ("a restored key may not leave", BACKUPS, SLOT, SLOT.replace("domain, 1,", "domain, 0,")),
    ("a restored key is approved", BACKUPS, SLOT, SLOT.replace("domain, 1,", "1, 1,")),
    ("a restored key has all uses", BACKUPS, SLOT, SLOT.replace("uses, key", "2**32 - 1, key")),
    ("a restored key has one use more", BACKUPS, SLOT, SLOT.replace("uses, key", "uses + 1, key")),
    ("a restored key lies in the next slot", BACKUPS, "        found[slot] =", "        found[(slot + 1) % 16] ="),
    # The words.
    ("keys have 63 bytes or more", WORDS, "len(files[name]) != KEYS", "not KEYS - 1 <= len(files[name])"),
    ("keys may have more bytes", WORDS, "len(files[name]) != KEYS", "len(files[name]) < KEYS"),
    ("keys may have a line feed", WORDS, "len(files[name]) != KEYS", "len(files[name].rstrip(b\"\\n\")) != KEYS"),
    ("keys may be in hex", WORDS, "len(files[name]) != KEYS", "len(files[name]) not in (KEYS, 2 * KEYS)"),
    ("keys of one half will do", WORDS, "len(files[name]) != KEYS", "len(files[name]) not in (KEYS // 2, KEYS)"),
    ("keys that are none are bad", WORDS, "def look_at_keys(name, files):\n    refuse_where(name not in files, FILE_FAILED)", "def look_at_keys(name, files):\n    refuse_where(name not in files, BAD_KEYS)"),
    ("a backup that is none is bad", WORDS, "def look_at_backup(name, files):\n    refuse_where(name not in files, FILE_FAILED)", "def look_at_backup(name, files):\n    refuse_where(name not in files, BAD_BACKUP)"),
    ("a longer backup is read first", WORDS, "    refuse_where(len(files[name]) > LARGEST_BACKUP, BAD_BACKUP)\n", ""),
    ("a longer backup is cut", WORDS, "    refuse_where(len(files[name]) > LARGEST_BACKUP, BAD_BACKUP)\n", "    files[name] = files[name][:LARGEST_BACKUP]\n"),
    ("the longest backup is too long", WORDS, "len(files[name]) > LARGEST_BACKUP", "len(files[name]) >= LARGEST_BACKUP"),
    ("the backup is looked at before the keys", WORDS, LOOK_AT_BOTH, "[(look_at_backup, kept), (look_at_keys, keys)]"),
    ("keys are looked at before the digest", WORDS, "    refuse_where(digest is None, BAD_DIGEST)\n" + LOOK, LOOK + "    refuse_where(digest is None, BAD_DIGEST)\n"),
    ("keys are looked at first", WORDS, "    image = image_of(names[0], files)\n", LOOK + "    image = image_of(names[0], files)\n"),
    ("the noise is looked at before the keys", WORDS, LOOK + NOISE, "    refuse_where(names[2] not in files, FILE_FAILED)\n" + LOOK + "    return image"),
    ("backups are of any state", WORDS, NOT_OFFICER, "    return 0, backup_of"),
    ("a user may back up", WORDS, NOT_OFFICER, NOT_OFFICER.replace("!= State.OFFICER", "not in (State.OFFICER, State.USER)")),
    ("an entry may be open", WORDS, NOT_OFFICER, NOT_OFFICER.replace("!= State.OFFICER", "not in (State.OFFICER, State.ENTRY)")),
    ("a backup is empty where nobody is officer", WORDS, NOT_OFFICER, "    if machine.state != State.OFFICER:\n        return 0, b\"\"\n    return 0, backup_of"),
    ("a bad line ends the lines", WORDS, BAD_LINE, ""),
    ("a bad line isn't told", WORDS, BAD_LINE, "    if status == BAD_LINE:\n        return status, b\"\"\n"),
    ("replies are written at a bad line", WORDS, BAD_LINE, "    if status == BAD_LINE:\n        return status, replies\n"),
    ("the officer is asked for before the bad line", WORDS, BAD_LINE, "    refuse_where(machine.state != State.OFFICER, NOT_OFFICER)\n" + BAD_LINE),
    ("replies are written before the backup", WORDS, "return 0, backup_of(machine.slots, files[keys])", "return 0, replies + backup_of(machine.slots, files[keys])"),
    ("a restored module has a period", WORDS, "b\"poweron 0\"", "b\"poweron 1\""),
    ("a restored module makes no tests", WORDS, "    for line in TO_OFFICER:\n        machine.command(*command(line))\n", "    for line in TO_OFFICER:\n        machine.command(*command(line))\n    machine.state = State.OFFICER\n"),
    ("a restored module has no role", WORDS, "        return BAD_BACKUP, b\"\"\n    return answered", "        return BAD_BACKUP, b\"\"\n    machine.state = State.APPROVED\n    return answered"),
    ("a bad backup is an empty one", WORDS, REFUSED, "    except BadBackup:\n        pass\n"),
    ("the backup is looked at before the tests", WORDS, "    for line in TO_OFFICER:\n        machine.command(*command(line))\n    refuse_where(machine.state != State.OFFICER, NOT_OFFICER)\n    try:\n        machine.slots = restored(machine.slots, files[keys], files[kept])\n" + REFUSED, "    try:\n        slots = restored(machine.slots, files[keys], files[kept])\n" + REFUSED + "    for line in TO_OFFICER:\n        machine.command(*command(line))\n    refuse_where(machine.state != State.OFFICER, NOT_OFFICER)\n    machine.slots = slots\n"),
    ("the replies to the start are written", WORDS, "        return BAD_BACKUP, b\"\"\n    return answered(machine, stream)", "        return BAD_BACKUP, b\"\"\n    return operate_on(stream, files[names[0]], files[names[1]], files[names[2]])"),
    ("keys and backup are exchanged", WORDS, "    keys, kept, *names = words", "    kept, keys, *names = words"),
    ("words more are left out", WORDS, "    if len(words[1:]) != count:\n", "    if count is None or len(words[1:]) < count:\n"),
    ("names of words have no case", WORDS, "WORDS.get(words[0] if words else None", "WORDS.get(words[0].lower() if words else None"),
    ("lines of restore aren't answered", WORDS, "        return BAD_BACKUP, b\"\"\n    return answered(machine, stream)", "        return BAD_BACKUP, b\"\"\n    return 0, b\"\""),
]


def baseline():
    """The runs with the models' answers, the short ones first."""
    runs = []
    for made in backup_runs.each_run():
        for words, files, stream in backup_runs.with_files(made):
            more = {name: content for name, content in files.items() if name not in FILES}
            runs.append((" ".join((made.lines, *made.words)), words, more, stream, run(words, files, stream)))
    return sorted(runs, key=lambda each: len(each[3]) + len(each[4][1]))


if __name__ == "__main__":
    sys.exit(try_all(MISTAKES, FILES, baseline()))

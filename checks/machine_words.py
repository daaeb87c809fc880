"""An independent model of the program: what it answers to the words after its name, over files and standard input on which no call
fails. It is written from their description and not from the sources.
"""
import re

import machine_functions as functions
import transcripts
from machine import IMAGE_KEY, Machine, served
from machine_backups import KEYS, LARGEST_BACKUP, BadBackup, backup_of, restored
from machine_bodies import State
from machine_lines import BAD_DIGEST, BAD_LINE, answered, command, digest_of, lines_of
from machine_lines import operate as operate_on
from machine_sessions import LARGEST_COUNT, LARGEST_SEED, summary
from machine_vectors import report

LARGEST_IMAGE = 16_777_216
USAGE, FILE_FAILED, IMAGE_TOO_LONG, BAD_KEYS, NOT_OFFICER, BAD_BACKUP = 2, 8, 9, 13, 14, 15
# What leads a module that isn't powered to the officer's role.
TO_OFFICER = (b"poweron 0", b"tests", b"step", b"step", b"step", b"role officer")


class Refused(Exception):
    """The status that the run ends with, before anything is read from standard input."""

    def __init__(self, status):
        super().__init__(status)
        self.status = status


def refuse_where(holds, status):
    if holds:
        raise Refused(status)


def number(word, largest):
    refuse_where(not re.fullmatch("0|[1-9][0-9]*", word) or len(word) > len(str(largest)) or int(word) > largest, USAGE)
    return int(word)


def image_of(name, files):
    refuse_where(name not in files, FILE_FAILED)
    refuse_where(len(files[name]) > LARGEST_IMAGE, IMAGE_TOO_LONG)
    return files[name]


def parts(names, files, others=()):
    """Image, digest and noise, looked at in this order; what else is looked at comes before the noise."""
    image = image_of(names[0], files)
    refuse_where(names[1] not in files, FILE_FAILED)
    digest = digest_of(files[names[1]])
    refuse_where(digest is None, BAD_DIGEST)
    for look, name in others:
        look(name, files)
    refuse_where(names[2] not in files, FILE_FAILED)
    return image, digest, files[names[2]]


def look_at_keys(name, files):
    refuse_where(name not in files, FILE_FAILED)
    refuse_where(len(files[name]) != KEYS, BAD_KEYS)


def look_at_backup(name, files):
    refuse_where(name not in files, FILE_FAILED)
    refuse_where(len(files[name]) > LARGEST_BACKUP, BAD_BACKUP)


def serve(words, files, stream):
    written, status = served(Machine(*parts(words, files)), stream)
    return status, written


def operate(words, files, stream):
    parts(words, files)
    image, digest_text, noise = (files[name] for name in words)
    return operate_on(stream, image, digest_text, noise)


def digest(words, files, stream):
    return 0, functions.hmac(1, IMAGE_KEY, image_of(words[0], files)).hex().encode() + b"\n"


def session(words, files, stream):
    seed, count = number(words[0], LARGEST_SEED), number(words[1], LARGEST_COUNT)
    return 0, summary(seed, count, *parts(words[2:], files))


def vectors(words, files, stream):
    return report(stream)


def check(words, files, stream):
    return transcripts.check(stream)


def backup(words, files, stream):
    keys, *names = words
    machine = Machine(*parts(names, files, [(look_at_keys, keys)]))
    status, replies = answered(machine, stream)
    if status == BAD_LINE:
        return status, lines_of(replies)[-1] + b"\n"
    refuse_where(machine.state != State.OFFICER, NOT_OFFICER)
    return 0, backup_of(machine.slots, files[keys])


def restore(words, files, stream):
    keys, kept, *names = words
    machine = Machine(*parts(names, files, [(look_at_keys, keys), (look_at_backup, kept)]))
    for line in TO_OFFICER:
        machine.command(*command(line))
    refuse_where(machine.state != State.OFFICER, NOT_OFFICER)
    try:
        machine.slots = restored(machine.slots, files[keys], files[kept])
    except BadBackup:
        return BAD_BACKUP, b""
    return answered(machine, stream)


# For each first word how many others there are, and what it does.
WORDS = {
    "serve": (3, serve),
    "operate": (3, operate),
    "digest": (1, digest),
    "session": (5, session),
    "vectors": (0, vectors),
    "check": (0, check),
    "backup": (4, backup),
    "restore": (5, restore),
}


def run(words, files, stream):
    """The status, and the bytes written."""
    count, does = WORDS.get(words[0] if words else None, (None, None))
    if len(words[1:]) != count:
        return USAGE, b""
    try:
        return does(words[1:], files, stream)
    except Refused as refusal:
        return refusal.status, b""

"""What the runs of backups are written with: the files that they name, and operators whose slots are backed up, or were."""
from collections import namedtuple

from line_parts import FILES as LINE_FILES
from line_parts import Operator, counted
from machine_backups import KEYS, MAGIC, halves, joined, record, restored, signed
from machine_bodies import Kind, fits
from machine_functions import wrap
from machine_lines import command
from machine_words import TO_OFFICER

KEY_BYTES = counted(KEYS)
KEK, MAC = halves(KEY_BYTES)
OTHER_BYTES = bytes(range(100, 100 + KEYS))
OTHER_KEK, OTHER_MAC = halves(OTHER_BYTES)
# A key of the tag under which that of the magic bytes alone begins with a zero, which stands where the number of records does.
MAC_OF_ZERO = next(mac for mac in (bytes([k]) * 32 for k in range(256)) if signed(mac, MAGIC)[4] == 0)
NAMED = ("image", "image_changed", "digest", "digest_empty", "digest_of_63_digits", "noise", "noise_of_1407", "noise_of_1408", "noise_of_zeros")
FILES = {
    **{name: LINE_FILES[name] for name in NAMED},
    "keys": KEY_BYTES,
    "other_keys": OTHER_BYTES,
    "keys_with_another_kek": OTHER_KEK + MAC,
    "keys_with_another_mac": KEK + OTHER_MAC,
    "keys_exchanged": MAC + KEK,
    "keys_of_zero": KEK + MAC_OF_ZERO,
    "keys_of_0": b"",
    "keys_of_32": KEK,
    "keys_of_63": KEY_BYTES[:-1],
    "keys_and_a_line_feed": KEY_BYTES + b"\n",
    "keys_in_hex": KEY_BYTES.hex().encode(),
}
PARTS = ("image", "digest", "noise")
BACKUP = ("backup", "keys", *PARTS)
# The input of runs of which most are refused: what is read of it shows slot 2.
SLOT_2, SHOW_SLOT_2 = "slot_2", b"slot 2\n"

# The name of the file with the inputs, the words of the runs, their inputs, the backups that their third word names (one that is None
# where it names none), and the status of each run that its author has in mind: those of the first input come first.
Run = namedtuple("Run", "lines words inputs backups statuses")

DOMAINS = ("other", "approved")
WORDS = {Kind.AES: "aes", Kind.KEK: "kek", Kind.MAC: "mac", Kind.KDF: "kdf"}
MOST_USES = 2**32 - 1
JEFE = b"Jefe"
# Every kind and domain with each length that a parameter of it may have, sixteen at a time.
COMBINATIONS = [(kind, domain, length) for kind in Kind for domain in (0, 1) for length in range(1, 65) if fits(kind, domain, length)]
GROUPS = [COMBINATIONS[at : at + 16] for at in range(0, len(COMBINATIONS), 16)]


def key_of(kind, domain, length):
    """Bytes that no other kind, domain and length has."""
    return bytes((64 * kind + 32 * domain + length + 5 * place) % 256 for place in range(length))


def uses_of(slot):
    return MOST_USES if slot % 2 else 1


def wrapped(key, kek=KEK):
    return wrap(True, kek, key)


def kept(slot, kind, key, domain=0, uses=100):
    """The record of a slot."""
    return record(slot, kind, domain, uses, len(key), wrapped(key))


# The backup of slot 2 with the MAC key `Jefe`, for 7 uses, and the longest one.
GOOD = kept(2, Kind.MAC, JEFE, uses=7)
A_SLOT = joined(MAC, [GOOD])
LONGEST = joined(MAC, [kept(slot, Kind.MAC, counted(64 + slot)[slot:], 1, uses_of(slot)) for slot in range(16)])
NO_SLOT = joined(MAC, [])
assert (len(NO_SLOT), len(A_SLOT), len(LONGEST)) == (37, 61, 1_317)
# Backups that runs of other files name.
GOOD_AND_BAD = [A_SLOT, A_SLOT[:-1]]
TOO_LONG = [LONGEST + b"\0", b"\0" + LONGEST, signed(MAC, LONGEST[:-32] + b"\0"), bytes(1_318), bytes(4_096)]


def backups_named(name):
    """The words of runs over the backups of a file."""
    return ("restore", "keys", name, *PARTS)


class Backing(Operator):
    """Lines that make the slots of a backup, by an officer after the tests."""

    def __init__(self, **files):
        super().__init__(**files)
        self.start().officer()

    def keep(self, slot, kind, key, domain=0, export="export", uses=100):
        self.enter(slot, WORDS[kind], key, DOMAINS[domain], export, uses)

    def use(self, *slots):
        """Spends a use of MAC keys."""
        self.user()
        for slot in slots:
            self.ask(f"mac {slot} sha256 8 616263")
        self.officer()

    def input(self):
        return b"\n".join(self.lines) + b"\n"


class Restoring(Operator):
    """Lines to a module into which a backup was restored."""

    def __init__(self, backup, **files):
        super().__init__(**files)
        self.backup = backup
        for each in TO_OFFICER:
            self.machine.command(*command(each))
        self.machine.slots = restored(self.machine.slots, KEY_BYTES, backup)

    def restored(self, name):
        words = ("restore", "keys", f"{name}_kept", *self.words[1:])
        return Run(name, words, [b"\n".join(self.lines) + b"\n"], [self.backup], [0])

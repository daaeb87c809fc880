"""What the runs of lines are written with: the files that they name, and an operator whose lines the model answers."""
import hashlib
import hmac
from collections import namedtuple

from machine import IMAGE_KEY, Machine
from machine_bodies import State
from machine_functions import gcm_seal, wrap
from machine_lines import command, digest_of, reply_line

IMAGE = b"abc"
DIGITS = hmac.new(IMAGE_KEY, IMAGE, hashlib.sha256).hexdigest().encode()


def counted(length):
    """The bytes 00, 01, 02 and so on."""
    return bytes(k % 256 for k in range(length))


# The files that runs name. A pass of the tests takes 1,408 bytes of noise, and a reseed 256.
FILES = {
    "image": IMAGE,
    "image_changed": b"abb",
    "image_of_nothing": b"",
    "digest": DIGITS + b"\n",
    "digest_in_upper_case": DIGITS.upper(),
    "digest_of_nothing": hmac.new(IMAGE_KEY, b"", hashlib.sha256).hexdigest().encode(),
    "digest_empty": b"",
    "digest_of_63_digits": DIGITS[:63],
    "digest_of_65_digits": DIGITS + b"0",
    "digest_with_two_line_feeds": DIGITS + b"\n\n",
    "digest_with_a_return": DIGITS + b"\r\n",
    "digest_with_a_space": b" " + DIGITS[:63],
    "digest_with_a_letter": DIGITS[:63] + b"g",
    "noise": counted(4_096),
    "noise_of_1000": counted(1_000),
    "noise_of_1407": counted(1_407),
    "noise_of_1408": counted(1_408),
    "noise_of_1663": counted(1_663),
    "noise_of_1664": counted(1_664),
    "noise_of_zeros": bytes(31),
    "noise_of_thirty_zeros": (bytes(30) + b"\1") * 12,
    "noise_of_thirty_and_two": bytes(30) + b"\1\2" + counted(1_376),
}
NOTHING = "00" * 12
OPERATE = ("operate", "image", "digest", "noise")

# Parts the inputs of a file: no line has it.
SEPARATOR = b"\x1e"

# The words of a run, its inputs of which each is for a run of its own, and the status of each that their author has in mind.
Run = namedtuple("Run", "words inputs statuses")


def one(words, stream, status=0):
    return Run(words, [stream], [status])


class Surprise(Exception):
    """The model answers otherwise than the one who wrote the run had in mind."""


def check_value(key, header):
    return hmac.new(key, header, hashlib.sha256).hexdigest()[:16]


def turned(value):
    """With the lowest bit of the last byte turned."""
    return value[:-1] + bytes([value[-1] ^ 1])


def word(value):
    """A word of hex digits."""
    return value.hex() or "-"


def line(*values):
    return " ".join(word(value) if isinstance(value, bytes) else str(value) for value in values)


class Operator:
    """Lines, and the replies that the model gives to them."""

    def __init__(self, image="image", digest="digest", noise="noise"):
        self.words = ("operate", image, digest, noise)
        self.machine = Machine(FILES[image], digest_of(FILES[digest]), FILES[noise])
        self.lines, self.replies = [], b""

    def ask(self, line, wants="Ok"):
        """Writes a line, and says how the reply to it should begin: some words of it, or all, with Z for an empty block."""
        if isinstance(line, str):
            line = line.encode()
        reply = reply_line(self.machine.command(*command(line))).decode()
        wanted = [NOTHING if each == "Z" else each for each in wants.split()]
        if reply.split()[: len(wanted)] != wanted:
            raise Surprise(f"{line[:80]}: {reply[:200]!r} in place of {wants!r}")
        self.lines.append(line)
        self.replies += reply.encode()
        return reply.split()[-1]

    def note(self, line):
        """Writes a comment."""
        self.lines.append(line.encode())

    def run(self, end=b"\n"):
        return one(self.words, b"\n".join(self.lines) + end)

    def power_on(self, period=0):
        self.ask(f"poweron {period}")
        self.ask("tests")
        return self

    def step(self, *wants):
        for wanted in wants or ("Ok", "Ok", "Ok"):
            self.ask("step", wanted)

    def start(self, period=0):
        self.power_on(period).step()
        return self

    def officer(self):
        if self.machine.state != State.OFFICER:
            self.ask("role officer")

    def user(self):
        if self.machine.state != State.USER:
            self.ask("role user")

    def begin(self, slot, kind, domain="other", export="keep", uses=100, length=32):
        """Begins an entry as the officer."""
        self.officer()
        self.ask(line("begin", slot, kind, domain, export, uses, length))

    def commit(self, key, wants="Ok"):
        """Commits the entry by the right check value of these bytes."""
        header = self.machine.entry.header
        fields = bytes([header.target, header.kind, header.domain, header.export]) + header.uses.to_bytes(4, "big")
        self.ask(f"commit {check_value(key, fields + bytes([header.length]))}", wants)

    def enter(self, slot, kind, key=counted(32), domain="other", export="keep", uses=100):
        self.begin(slot, kind, domain, export, uses, len(key))
        self.ask(line("bytes", key))
        self.commit(key)

    def show(self, *slots):
        self.officer() if self.machine.state not in (State.OFFICER, State.USER) else None
        for slot in slots:
            self.ask(f"slot {slot}")


def sealed(key, iv, aad, text, length=16):
    """The ciphertext, and its tag cut to this length."""
    ciphertext, tag = gcm_seal(key, iv, aad, text)
    return ciphertext, tag[:length]


def wrapped(key, kek=counted(32)):
    return wrap(False, kek, key)


def padded(key, kek=counted(32)):
    return wrap(True, kek, key)

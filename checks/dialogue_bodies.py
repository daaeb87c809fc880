"""What the dialogues are written with: bodies of commands from their fields, and a dialogue that the model answers."""
import hashlib
import hmac

from machine import Engine, Machine, frame, served
from machine_bodies import OTHER, Service, State, Status

IMAGE = b"abc"
DIGEST = hmac.new(bytes(range(32)), IMAGE, hashlib.sha256).digest()
# The noise of 00, 01, .., ff, and again from 00. A pass of the tests takes 1,408 samples, and a reseed 256.
NOISE = bytes(k % 256 for k in range(32_768))
PASS, RESEED = 1_408, 256
MOST_RESEEDS = (len(NOISE) - PASS) // RESEED
# How many bytes of a stream come at a time: no divisor of a frame's length, so that frames are cut anywhere.
STEP = 4_099


def counted(length):
    """The bytes 00, 01, 02 and so on."""
    return bytes(k % 256 for k in range(length))


def header(slot, kind, domain=OTHER, export=0, uses=100, length=32):
    return bytes([slot, kind, domain, export]) + uses.to_bytes(4, "big") + bytes([length])


def target(slot, kind, export=0, uses=100):
    return bytes([slot, kind, export]) + uses.to_bytes(4, "big")


def mac(slot, length=32, text=b"abc", alg=1):
    return bytes([slot, alg, length]) + text


def mac_verify(slot, tag, text=b"abc", alg=1):
    return bytes([slot, alg, len(tag)]) + tag + text


def seal(slot, text, aad=b"", length=16):
    return bytes([slot, length]) + len(aad).to_bytes(4, "big") + aad + text


def seal_iv(slot, iv, text, aad=b"", length=16):
    return bytes([slot, length, len(iv)]) + len(aad).to_bytes(4, "big") + iv + aad + text


def opening(slot, iv, text, tag, aad=b""):
    return seal_iv(slot, iv, text + tag, aad, len(tag))


def unwrapping(kek, slot, kind, wrapped, export=0, uses=100):
    return bytes([kek]) + target(slot, kind, export, uses) + wrapped


def derive(source, slot, kind, length=32, label=b"", context=b"", export=0, uses=100):
    return bytes([source]) + target(slot, kind, export, uses) + bytes([length, len(label)]) + label + context


def random(length, additional=b""):
    return length.to_bytes(4, "big") + additional


def turned(value, place=-1):
    """With the lowest bit of one byte turned."""
    changed = bytearray(value)
    changed[place] ^= 1
    return bytes(changed)


class Surprise(Exception):
    """The model answers another status than the one who wrote the dialogue had in mind."""


class Dialogue:
    """Commands, and the replies that the model gives them. Without `strict` any status is taken.

    It is had over so many samples of noise, once for each number of bytes that come at a time, over an engine with this fault.
    """

    strict = True

    def __init__(self, samples=len(NOISE), steps=(STEP,), fault=()):
        self.samples, self.steps, self.fault = samples, steps, fault
        self.machine = Machine(IMAGE, DIGEST, NOISE[:samples], Engine(*fault))
        self.stream, self.replies, self.status = b"", b"", 0

    def ask(self, service, body=b"", status=Status.OK, sequence=None):
        """Asks, and says which status should come: None where the reply alone is to say it."""
        self.stream += frame(service, body, sequence)
        reply = self.machine.command(service, body, sequence)
        if self.strict and status is not None and reply.status != status:
            raise Surprise(f"{service!r} {body[:40].hex()}: {reply.status!r} in place of {status!r}")
        self.replies += reply.spelling()
        return reply

    def end(self, tail):
        """Ends the stream by bytes that are no whole command."""
        self.stream += tail
        replies, self.status = served(self.machine, tail)
        self.replies += replies

    def start(self, period=0):
        self.ask(Service.POWER_ON, period.to_bytes(4, "big"))
        self.ask(Service.REQUEST_TESTS)
        self.tests()
        return self

    def tests(self):
        for _ in range(3):
            self.ask(Service.TEST_STEP)

    def officer(self):
        if self.machine.state != State.OFFICER:
            self.ask(Service.SELECT_ROLE, b"\1")

    def user(self):
        if self.machine.state != State.USER:
            self.ask(Service.SELECT_ROLE, b"\2")

    def enter(self, slot, kind, key=counted(32), domain=OTHER, export=0, uses=100):
        """Enters a parameter as the officer."""
        self.officer()
        head = header(slot, kind, domain, export, uses, len(key))
        self.ask(Service.ENTRY_BEGIN, head)
        self.ask(Service.ENTRY_BYTES, key)
        self.ask(Service.ENTRY_COMMIT, hmac.new(key, head, hashlib.sha256).digest()[:8])

    def show(self, *slots):
        for slot in slots:
            self.ask(Service.SHOW_SLOT, bytes([slot]))

    def show_all(self):
        self.show(*range(16))

    def show_status(self):
        self.ask(Service.SHOW_STATUS)

    def zeroise(self, *slots):
        self.officer()
        for slot in slots:
            self.ask(Service.ZEROISE, bytes([slot]))

    def use_up_noise(self):
        """Reseeds until fewer than 256 samples are left; the generator's counter is 1 after it."""
        self.officer()
        for _ in range(len(self.machine.noise) // RESEED):
            self.ask(Service.RESEED)

"""An independent model of generated sessions: the commands that a seed and a count make, and the summary of what they are answered.
It is written from their description and not from the sources, over the model of the module in machine.py.
"""
import hashlib

from machine import Machine
from machine_bodies import APPROVED, Kind, Service, Status
from machine_lines import name_of

MULTIPLIER, INCREMENT, MODULUS = 6_364_136_223_846_793_005, 1_442_695_040_888_963_407, 2**64
LENGTHS = 4_096
LARGEST_SEED, LARGEST_COUNT = MODULUS - 1, 100_000
CIPHER_SLOT, MAC_SLOT = 0, 2
SHA256, SHA512 = 1, 3
TAG, IV = 16, 12
USES, KEY_LENGTH = 1_000_000, 32
# The statuses that a command without a number can have.
STATUSES = [status for status in Status if status != Status.OUT_OF_ORDER]


def quad(number):
    return number.to_bytes(4, "big")


def generating(slot, kind):
    exported = 1
    return Service.GENERATE, bytes([slot, kind, APPROVED, exported]) + quad(USES) + bytes([KEY_LENGTH])


BEGINNING = [
    (Service.POWER_ON, quad(0)),
    (Service.REQUEST_TESTS, b""),
    (Service.TEST_STEP, b""),
    (Service.TEST_STEP, b""),
    (Service.TEST_STEP, b""),
    (Service.SELECT_ROLE, b"\1"),
    generating(0, Kind.AES),
    generating(1, Kind.KEK),
    generating(2, Kind.MAC),
    generating(3, Kind.KDF),
    (Service.SELECT_ROLE, b"\2"),
]


def drawn(r):
    """The command that a number of 32 bits makes."""
    n = r // 256 % LENGTHS
    text = bytes((i + r) % 256 for i in range(n))
    no_aad = quad(0)
    return (
        (Service.HASH, bytes([SHA256]) + text),
        (Service.MAC, bytes([MAC_SLOT, SHA256, 32]) + text),
        (Service.SEAL, bytes([CIPHER_SLOT, TAG]) + no_aad + text),
        (Service.RANDOM, quad(n + 1)),
        (Service.HASH, bytes([SHA512]) + text),
        (Service.OPEN, bytes([CIPHER_SLOT, TAG, IV]) + no_aad + bytes(IV) + text + bytes(TAG)),
        (Service.SHOW_STATUS, b""),
        (Service.SHOW_SLOT, bytes([n % 16])),
    )[r % 8]


def session(seed, count):
    """The commands: eleven that any session begins with, and then so many."""
    commands, x = list(BEGINNING), seed
    for _ in range(count):
        x = (MULTIPLIER * x + INCREMENT) % MODULUS
        commands.append(drawn(x >> 32))
    return commands


def summary_of(machine, commands) -> bytes:
    """Twenty lines on the replies of a module to commands."""
    replies = [machine.command(service, body) for service, body in commands]
    statuses = [reply.status for reply in replies]
    lines = [f"commands {len(replies)}"]
    lines += [f"status {status:d} {statuses.count(status)}" for status in STATUSES]
    lines.append(f"payload {sum(len(reply.payload) for reply in replies)}")
    lines.append(f"state {name_of(machine.state)}")
    lines.append(f"sha256 {hashlib.sha256(b''.join(reply.spelling() for reply in replies)).hexdigest()}")
    return "".join(f"{line}\n" for line in lines).encode()


def summary(seed, count, image, digest, noise) -> bytes:
    """The summary of a session; the digest has 32 bytes, the noise is a list of samples."""
    return summary_of(Machine(image, digest, noise), session(seed, count))

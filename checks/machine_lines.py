"""An independent model of the operator's lines: which command a line spells, and the line that tells a reply. It is written from
their description and not from the sources, over the model of the module in machine.py.

`command` reads a line, `reply_line` writes one, and `operate` answers a whole input. line_runs.py writes runs by it.
"""
import re

from machine import Machine
from machine_bodies import LARGEST_BODY, Service

LONGEST_LINE = 131_400
LARGEST_BYTE, LARGEST_QUAD = 2**8 - 1, 2**32 - 1
MOST_SHORT_BYTES = 255
BAD_LINE, BAD_DIGEST = 10, 11

ROLES = {b"none": 0, b"officer": 1, b"user": 2}
KINDS = {b"aes": 1, b"kek": 2, b"mac": 3, b"kdf": 4}
DOMAINS = {b"other": 0, b"approved": 1}
EXPORTS = {b"keep": 0, b"export": 1}
ALGS = {b"sha256": 1, b"sha384": 2, b"sha512": 3}


class BadLine(Exception):
    """A line that is neither a comment nor of a form."""


def need(holds):
    if not holds:
        raise BadLine


# Readers of one word.


def number(word, largest):
    need(re.fullmatch(rb"0|[1-9][0-9]*", word))
    need(len(word) <= len(str(largest)) and int(word) <= largest)
    return int(word)


def byte(word):
    return bytes([number(word, LARGEST_BYTE)])


def quad(word):
    return number(word, LARGEST_QUAD).to_bytes(4, "big")


def some_bytes(word):
    need(word == b"-" or re.fullmatch(rb"(?:[0-9a-fA-F]{2})+", word))
    return b"" if word == b"-" else bytes.fromhex(word.decode())


def few_bytes(word):
    read = some_bytes(word)
    need(len(read) <= MOST_SHORT_BYTES)
    return read


def one_of(names):
    def reader(word):
        need(word in names)
        return bytes([names[word]])

    return reader


role, kind, domain, export, alg = map(one_of, (ROLES, KINDS, DOMAINS, EXPORTS, ALGS))


# Bodies whose fields don't stand as their words do, or tell the length of a part.


def length_of(part):
    return bytes([len(part)])


def long_length_of(part):
    return len(part).to_bytes(4, "big")


def mac_verify(slot, alg, mac, text):
    return slot + alg + length_of(mac) + mac + text


def seal(slot, length, aad, text):
    return slot + length + long_length_of(aad) + aad + text


def seal_iv(slot, length, iv, aad, text):
    return slot + length + length_of(iv) + long_length_of(aad) + iv + aad + text


def opening(slot, iv, aad, text, tag):
    return slot + length_of(tag) + length_of(iv) + long_length_of(aad) + iv + aad + text + tag


def derive(source, slot, kind, export, uses, length, label, context):
    return source + slot + kind + export + uses + length + length_of(label) + label + context


def as_they_stand(*fields):
    return b"".join(fields)


HEADER = (byte, kind, domain, export, quad, byte)
UNWRAPPING = (byte, byte, kind, export, quad, some_bytes)

# For each first word the service, the readers of the words behind it, and what makes the body of what they read.
FORMS = {
    b"poweron": (Service.POWER_ON, (quad,), as_they_stand),
    b"step": (Service.TEST_STEP, (), as_they_stand),
    b"tests": (Service.REQUEST_TESTS, (), as_they_stand),
    b"status": (Service.SHOW_STATUS, (), as_they_stand),
    b"version": (Service.SHOW_VERSION, (), as_they_stand),
    b"role": (Service.SELECT_ROLE, (role,), as_they_stand),
    b"reset": (Service.RESET, (), as_they_stand),
    b"begin": (Service.ENTRY_BEGIN, HEADER, as_they_stand),
    b"bytes": (Service.ENTRY_BYTES, (some_bytes,), as_they_stand),
    b"commit": (Service.ENTRY_COMMIT, (some_bytes,), as_they_stand),
    b"abort": (Service.ENTRY_ABORT, (), as_they_stand),
    b"zeroise": (Service.ZEROISE, (byte,), as_they_stand),
    b"zeroiseall": (Service.ZEROISE_ALL, (), as_they_stand),
    b"slot": (Service.SHOW_SLOT, (byte,), as_they_stand),
    b"zeroisetree": (Service.ZEROISE_TREE, (byte,), as_they_stand),
    b"hash": (Service.HASH, (alg, some_bytes), as_they_stand),
    b"mac": (Service.MAC, (byte, alg, byte, some_bytes), as_they_stand),
    b"verify": (Service.MAC_VERIFY, (byte, alg, few_bytes, some_bytes), mac_verify),
    b"seal": (Service.SEAL, (byte, byte, some_bytes, some_bytes), seal),
    b"sealiv": (Service.SEAL_IV, (byte, byte, few_bytes, some_bytes, some_bytes), seal_iv),
    b"open": (Service.OPEN, (byte, few_bytes, some_bytes, some_bytes, few_bytes), opening),
    b"wrap": (Service.WRAP, (byte, byte), as_they_stand),
    b"unwrap": (Service.UNWRAP, UNWRAPPING, as_they_stand),
    b"wrappad": (Service.WRAP_PAD, (byte, byte), as_they_stand),
    b"unwrappad": (Service.UNWRAP_PAD, UNWRAPPING, as_they_stand),
    b"derive": (Service.DERIVE, (byte, byte, kind, export, quad, byte, few_bytes, some_bytes), derive),
    b"random": (Service.RANDOM, (quad, some_bytes), as_they_stand),
    b"generate": (Service.GENERATE, HEADER, as_they_stand),
    b"reseed": (Service.RESEED, (some_bytes,), as_they_stand),
}


def is_comment(line):
    """Whether a line is empty, or begins with `#`. One that is too long isn't."""
    need(len(line) <= LONGEST_LINE)
    return line == b"" or line.startswith(b"#")


def command(line):
    """The service and the body that a line spells; none for a comment."""
    if is_comment(line):
        return None
    first, *words = line.split(b" ")
    need(first in FORMS)
    service, readers, body_of = FORMS[first]
    need(len(words) == len(readers))
    body = body_of(*(reader(word) for reader, word in zip(readers, words)))
    need(len(body) <= LARGEST_BODY)
    return service, body


def lines_of(stream):
    """The lines of an input: what stands before each LF, and what stands behind the last where that isn't empty."""
    *lines, rest = stream.split(b"\n")
    return lines + [rest] if rest else lines


def name_of(member):
    return "".join(part.capitalize() for part in member.name.split("_"))


def reply_line(reply):
    words = [name_of(reply.status), name_of(reply.state), str(reply.approved), f"{reply.code:04x}"]
    words += [reply.block.ljust(12, b"\0").hex(), reply.payload.hex() or "-"]
    return " ".join(words).encode() + b"\n"


def bad_line(number):
    return f"bad line {number}\n".encode()


def answered(machine, stream):
    """The status and the lines that an input is answered by."""
    written = b""
    for number, line in enumerate(lines_of(stream), 1):
        try:
            spelled = command(line)
        except BadLine:
            return BAD_LINE, written + bad_line(number)
        if spelled:
            written += reply_line(machine.command(*spelled))
    return 0, written


def digest_of(text):
    """The digest that a file spells: 64 digits, and at most one LF behind them. None where it isn't of that form."""
    if not re.fullmatch(rb"[0-9a-fA-F]{64}\n?", text):
        return None
    return bytes.fromhex(text[:64].decode())


def operate(stream, image, digest_text, noise):
    """The status and the lines of a run; the noise is a list of samples."""
    digest = digest_of(digest_text)
    if digest is None:
        return BAD_DIGEST, b""
    return answered(Machine(image, digest, noise), stream)

"""Writes commands to standard output that bring a module into the user's role and then ask for one service, many times.

usage: commands.py SERVICE BYTES COUNT PROGRAM WORDS..

SERVICE is ShowStatus, Seal, Open, Mac, Hash or Random, BYTES the length of its text or of what is drawn. Slot 0 holds an AES key of 32
bytes and slot 1 a MAC key of 32. What Open is given, the program seals first: so it is run once with these words.
"""
import os
import subprocess
import sys

sys.path.insert(0, os.path.join(os.path.dirname(os.path.abspath(__file__)), "..", "examples"))
from client import (
    TAG_LENGTH, Algorithm, Domain, Kind, Role, Service, check_value, command_frame, entry_header, open_body, parts_of_sealed, seal_body,
)

MOST_USES = 2**32 - 1
KEY = bytes(range(32))
AT_ONCE = 1 << 20


def entry(slot, kind):
    header = entry_header(slot, kind, Domain.Approved, False, MOST_USES, len(KEY))
    parts = ((Service.EntryBegin, header), (Service.EntryBytes, KEY), (Service.EntryCommit, check_value(header, KEY)))
    return b"".join(command_frame(*part) for part in parts)


def to_user():
    tests = command_frame(Service.RequestTests) + command_frame(Service.TestStep) * 3
    officer, user = (command_frame(Service.SelectRole, bytes([role])) for role in (Role.Officer, Role.User))
    return command_frame(Service.PowerOn, bytes(4)) + tests + officer + entry(0, Kind.AesKey) + entry(1, Kind.MacKey) + user


def sealed(text, program):
    """What the program's last reply gives: IV, ciphertext and tag of the text."""
    body = seal_body(0, text, b"", TAG_LENGTH)
    ran = subprocess.run(program, input=to_user() + command_frame(Service.Seal, body), stdout=subprocess.PIPE, check=True)
    length = 12 + len(text) + TAG_LENGTH
    if int.from_bytes(ran.stdout[-length - 4 : -length], "big") != length:
        sys.exit("commands: nothing was sealed")
    return parts_of_sealed(ran.stdout[-length:])


def body_of(service, size, program):
    text = bytes(k % 256 for k in range(size))
    if service == Service.Open:
        return open_body(0, *sealed(text, program), b"")
    return {
        Service.ShowStatus: b"",
        Service.Hash: bytes([Algorithm.SHA256]) + text,
        Service.Mac: bytes([1, Algorithm.SHA256, 32]) + text,
        Service.Seal: seal_body(0, text, b"", TAG_LENGTH),
        Service.Random: size.to_bytes(4, "big"),
    }[service]


def main(name, size, count, *program):
    service = Service[name]
    frame = command_frame(service, body_of(service, int(size), program))
    count, together = int(count), max(1, AT_ONCE // len(frame))
    sys.stdout.buffer.write(to_user())
    for done in range(0, count, together):
        sys.stdout.buffer.write(frame * min(together, count - done))


if __name__ == "__main__":
    main(*sys.argv[1:])

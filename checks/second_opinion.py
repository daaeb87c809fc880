#!/usr/bin/env python3
"""Plays random streams through the built program's `serve` and through the model of machine.py, and compares replies and exit status.

usage: second_opinion.py PROGRAM [FIRST [COUNT]]

A number makes one stream, FIRST and those after it COUNT of them: frames of both versions with services, bodies and keys that fit the
state that the model is in, or don't; image, digest and noise, which may be at fault; and at the end nothing, a frame that is cut, or a
bad one. The stream reaches the program in pieces that the number makes too: each read gets one piece (a packet of a socket), which
may end inside a frame or hold several. What is written to standard error is the text of the exit status. Commands and replies, each
behind its command, are a transcript, to which the program's `check` has to say yes.

Each of these was tried, and streams 1 to 200 told it: in the model a Seal that doesn't draw where its slot is empty, an Unwrap that
links its target only where it fills it, a refused use that isn't counted, a Reset that sets the expected number, a draw that reseeds one
draw late, and a frame of which byte 3 isn't looked at; and a program that is given another noise.
"""
import hashlib
import hmac
import os
import random
import socket
import subprocess
import sys
import tempfile

import dialogue_bodies as bodies
import machine_functions as functions
from machine import Machine, frame, served
from machine_bodies import STATES, Kind, Service, State
from machine_rules import COMMAND, REPLY
from transcript_runs import split

SECONDS = 60
TEXTS = {0: b"", 3: b"bad frame\n", 4: b"truncated frame\n"}
ROLES = (State.OFFICER, State.USER)
# Which service leads on from a state where few are permitted.
ONWARD = {
    State.OFF: Service.POWER_ON,
    State.INIT: Service.REQUEST_TESTS,
    State.SELF_TEST: Service.TEST_STEP,
    State.APPROVED: Service.SELECT_ROLE,
    State.ENTRY: Service.ENTRY_BYTES,
    State.ERROR: Service.RESET,
}
# Those that end what is there, and that come seldom so that something is.
SELDOM = (Service.RESET, Service.REQUEST_TESTS, Service.ZEROISE_ALL, Service.ENTRY_ABORT)
# So many keys make an officer busy with other things than new ones.
KEYS = 6
LARGEST = 65_600
MOST_IN_ERROR = 4


class Player:
    """Makes a stream command by command, each with what the model knows by then."""

    def __init__(self, number):
        self.rng = random.Random(number)
        self.files = self.made_files()
        self.machine = Machine(self.files["image"], bytes.fromhex(self.files["digest"].decode()), self.files["noise"])
        self.stream = self.replies = b""
        self.status = 0

    def bytes(self, least, most):
        return self.rng.randbytes(self.rng.randint(least, most))

    def chance(self, share):
        return self.rng.random() < share

    def made_files(self):
        image = self.bytes(0, 300)
        of = image + b"more" if self.chance(0.04) else image
        digest = hmac.new(bytes(range(32)), of, hashlib.sha256).hexdigest()
        return {"image": image, "digest": digest.encode(), "noise": self.noise()}

    def noise(self):
        noise = self.bytes(12_000, 16_000)
        kind = self.rng.random()
        if kind < 0.1:
            return noise[: self.rng.randint(0, 4_500)]
        if kind < 0.15:
            at = self.rng.randint(0, 4_500)
            return noise[:at] + bytes(self.rng.randint(29, 32)) + noise[at:]
        if kind < 0.2:
            return bytes(self.rng.choice((7, 7, 7, byte)) for byte in noise)
        return noise

    # Bodies, by the names of their services.

    def slot(self, kind=None):
        """Some slot; where a kind is named, most often one that holds a key of it."""
        fit = [number for number, slot in enumerate(self.machine.slots) if slot and slot.kind == kind]
        return self.rng.choice(fit) if fit and self.chance(0.9) else self.rng.randrange(16)

    def key(self, number):
        slot = self.machine.slots[number]
        return slot.key if slot and self.chance(0.8) else bytes(16)

    def free(self):
        fit = [number for number, slot in enumerate(self.machine.slots) if slot is None]
        return self.rng.choice(fit) if fit and self.chance(0.8) else self.rng.randrange(16)

    def uses(self):
        return self.rng.choice((1, 2, 3, 100, 100, 2**32 - 1))

    def length(self, kind):
        return self.rng.choice((16, 24, 32)) if kind in (Kind.AES, Kind.KEK) else self.rng.choice((1, 13, 14, 20, 24, 32, 64))

    def text(self):
        if self.chance(0.005):
            return self.bytes(60_000, LARGEST)
        return self.bytes(0, self.rng.choice((3, 40, 200)))

    def power_on(self):
        return self.rng.choice((0, 0, 0, 0, 0, 2, 20, 1_000_000)).to_bytes(4, "big")

    def select_role(self):
        role = 1 if sum(slot is not None for slot in self.machine.slots) < KEYS else 2
        return bytes([role if self.chance(0.7) else self.rng.randrange(3)])

    def entry_begin(self):
        kind = self.rng.choice(list(Kind))
        return bodies.header(self.free(), kind, self.rng.randrange(2), self.rng.randrange(2), self.uses(), self.length(kind))

    generate = entry_begin

    def entry_bytes(self):
        entry = self.machine.entry
        missing = entry.header.length - len(entry.key) if entry else 16
        return self.rng.randbytes(missing or 1) if self.chance(0.7) else self.bytes(1, 64)

    def entry_commit(self):
        entry = self.machine.entry
        if entry is None or self.chance(0.1):
            return self.rng.randbytes(8)
        head = entry.header
        told = bodies.header(head.target, head.kind, head.domain, head.export, head.uses, head.length)
        return hmac.new(entry.key, told, hashlib.sha256).digest()[:8]

    def zeroise(self):
        return bytes([self.slot()])

    show_slot = zeroise_tree = zeroise

    def hash(self):
        return bytes([self.rng.randint(1, 3)]) + self.text()

    def mac(self):
        alg = self.rng.randint(1, 3)
        return bodies.mac(self.slot(Kind.MAC), self.rng.choice((1, 3, 4, 16 + 16 * alg)), self.text(), alg)

    def mac_verify(self):
        slot, alg, text = self.slot(Kind.MAC), self.rng.randint(1, 3), self.text()
        tag = functions.hmac(alg, self.key(slot), text)[: self.rng.choice((1, 3, 4, 32))]
        return bodies.mac_verify(slot, bodies.turned(tag) if self.chance(0.2) else tag, text, alg)

    def seal(self):
        return bodies.seal(self.slot(Kind.AES), self.text(), self.bytes(0, 20), self.rng.randint(12, 16))

    def seal_iv(self):
        return bodies.seal_iv(self.slot(Kind.AES), self.bytes(1, 20), self.text(), self.bytes(0, 20), self.rng.randint(12, 16))

    def open(self):
        slot, iv, aad = self.slot(Kind.AES), self.rng.choice((bytes(12), self.bytes(1, 20))), self.bytes(0, 20)
        key = self.key(slot)
        text, tag = functions.gcm_seal(key if len(key) in (16, 24, 32) else bytes(16), iv, aad, self.text())
        tag = tag[: self.rng.randint(12, 16)]
        return bodies.opening(slot, iv, text, bodies.turned(tag) if self.chance(0.2) else tag, aad)

    def wrap(self):
        return bytes([self.slot(Kind.KEK), self.slot()])

    wrap_pad = wrap

    def unwrap(self, pad=False):
        kek, kind = self.slot(Kind.KEK), self.rng.choice(list(Kind))
        length = self.length(kind)
        key = self.key(kek)
        text = self.rng.randbytes(length if pad else max(16, length - length % 8))
        wrapped = functions.wrap(pad, key if len(key) in (16, 24, 32) else bytes(16), text)
        wrapped = bodies.turned(wrapped) if self.chance(0.15) else wrapped
        return bodies.unwrapping(kek, self.free(), kind, wrapped, self.rng.randrange(2), self.uses())

    def unwrap_pad(self):
        return self.unwrap(True)

    def derive(self):
        kind = self.rng.choice(list(Kind))
        named = self.bytes(0, 30), self.bytes(0, 30)
        return bodies.derive(self.slot(Kind.KDF), self.free(), kind, self.length(kind), *named, self.rng.randrange(2), self.uses())

    def random(self):
        length = self.rng.choice((1_000, 65_536, 65_537, 0) if self.chance(0.05) else (1, 16, 33))
        return bodies.random(length, self.bytes(0, 10))

    def reseed(self):
        return self.bytes(0, 20)

    def body(self, service):
        make = getattr(self, service.name.lower(), None)
        return make() if make else b""

    def broken(self, body):
        """A body that is cut, longer, changed in one byte, or another altogether."""
        at = self.rng.randrange(len(body) + 1)
        longer = (body + self.bytes(1, 3))[:LARGEST]
        changed = bodies.turned(body, self.rng.randrange(min(len(body), 12))) if body else b"\0"
        return self.rng.choice((body[:at], longer, changed, self.bytes(0, 20)))

    # Commands.

    def service(self):
        state = self.machine.state
        if self.chance(0.06):
            return self.rng.choice((self.rng.randrange(256), *Service))
        if state in ONWARD and self.chance(0.9):
            whole = state == State.ENTRY and len(self.machine.entry.key) >= self.machine.entry.header.length
            return Service.ENTRY_COMMIT if whole else ONWARD[state]
        if state == State.OFFICER and self.chance(0.6) and sum(slot is not None for slot in self.machine.slots) < KEYS:
            return self.rng.choice((Service.ENTRY_BEGIN, Service.GENERATE))
        letter = "FITAOUEX"[state]
        may = [service for service in Service if letter in STATES[service] and (service not in SELDOM or self.chance(0.1))]
        return self.rng.choice(may)

    def sequence(self):
        """No number, the expected one, or another."""
        kind = self.rng.random()
        if kind < 0.6:
            return None
        return self.machine.next if kind < 0.95 else self.rng.choice((0, self.machine.next + 1, self.rng.randrange(2**32)))

    def ask(self, service, body):
        sequence = self.sequence()
        self.stream += frame(service, body, sequence)
        self.replies += self.machine.command(service, body, sequence).spelling()

    def ask_some(self):
        service = self.service()
        body = (self.body(service) if isinstance(service, Service) else self.bytes(0, 20))[:LARGEST]
        self.ask(service, self.broken(body)[:LARGEST] if self.chance(0.07) else body)

    def draw_past_the_interval(self):
        for _ in range(1_060):
            self.ask(Service.RANDOM, bodies.random(1))

    def tail(self):
        """What the stream ends with: nothing, part of a frame, or a bad frame and whatever comes behind it."""
        whole = frame(Service.HASH, b"\1" + self.bytes(0, 50), self.rng.choice((None, 1)))
        kind = self.rng.random()
        if kind < 0.5:
            return b""
        if kind < 0.75:
            return whole[: self.rng.randint(1, len(whole) - 1)]
        bad = bytearray(whole)
        at = self.rng.choice((0, 1, 3, 4))
        bad[at] = self.rng.choice([byte for byte in range(4, 256) if byte != 0xC5])
        return bytes(bad[: self.rng.randint(at + 1, len(bad))]) + self.bytes(0, 50)

    def play(self):
        in_error = 0
        for _ in range(self.rng.choice((5, 30, 60, 120))):
            self.ask_some()
            in_error += self.machine.state == State.ERROR
            # What follows then is the same again.
            if in_error > MOST_IN_ERROR:
                break
        if self.machine.state in ROLES and self.chance(0.02):
            self.draw_past_the_interval()
        tail = self.tail()
        replies, self.status = served(self.machine, tail)
        self.stream, self.replies = self.stream + tail, self.replies + replies
        return self

    def pieces(self):
        """The stream, cut."""
        left, most = self.stream, self.rng.choice((1, 7, 100, 4_000)) if len(self.stream) < 20_000 else 4_000
        cut = []
        while left:
            at = self.rng.randint(1, most)
            cut.append(left[:at])
            left = left[at:]
        return cut


def answered(program, room, player):
    """The program's replies, its exit status, and what it writes to standard error."""
    paths = []
    for name, content in player.files.items():
        paths.append(os.path.join(room, name))
        with open(paths[-1], "wb") as file:
            file.write(content)
    ours, its = socket.socketpair(socket.AF_UNIX, socket.SOCK_SEQPACKET)
    with ours, tempfile.TemporaryFile() as out, tempfile.TemporaryFile() as err:
        with its:
            process = subprocess.Popen([program, "serve", *paths], stdin=its, stdout=out, stderr=err)
        ours.settimeout(SECONDS)
        try:
            for piece in player.pieces():
                ours.sendall(piece)
            ours.shutdown(socket.SHUT_WR)
        except (BrokenPipeError, ConnectionResetError):
            # A bad frame ended it, and its replies say so.
            pass
        finally:
            status = process.wait(SECONDS)
        out.seek(0)
        err.seek(0)
        return out.read(), status, err.read()


def difference(player, found):
    """In which way the program's answer is another than the model's; none where it is the same."""
    replies, status, text = found
    if replies != player.replies:
        at = next((k for k, (a, b) in enumerate(zip(replies, player.replies)) if a != b), min(len(replies), len(player.replies)))
        return f"its replies ({len(replies)} bytes, the model's {len(player.replies)}) differ from byte {at} on"
    if status != player.status:
        return f"it ends with {status}, the model with {player.status}"
    if text != TEXTS[status]:
        return f"it ends with {status} and writes {text!r} to standard error"
    return None


def verdict(program, player, replies):
    """What `check` says of the dialogue, where it isn't yes."""
    commands, heads = split(player.stream, COMMAND)[0], split(replies, REPLY)[0]
    transcript = b"".join(command + reply for command, reply in zip(commands, heads))
    ended = subprocess.run([program, "check"], input=transcript, capture_output=True, timeout=SECONDS, check=False)
    if (ended.returncode, ended.stdout) != (0, b"lawful %d\n" % len(commands)):
        return f"of its {len(commands)} pairs `check` says {ended.stdout!r}, and ends with {ended.returncode}"
    return None


def main(program, first=1, count=200):
    commands = 0
    with tempfile.TemporaryDirectory() as room:
        for number in range(first, first + count):
            player = Player(number).play()
            found = answered(program, room, player)
            differs = difference(player, found) or verdict(program, player, found[0])
            if differs:
                print(f"second_opinion: FAILED: stream {number}: {differs}; python3 -B checks/second_opinion.py {program} {number} 1")
                return 1
            commands += len(player.stream)
    print(f"second_opinion: passed: {count} streams of {commands} bytes together, from {first} on")
    return 0


if __name__ == "__main__":
    sys.exit(main(sys.argv[1], *map(int, sys.argv[2:4])))

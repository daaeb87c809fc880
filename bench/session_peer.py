"""The session that two numbers make (docs/INTERFACE.md, Sessions), answered over Python's hashlib, hmac and cryptography.

usage: session_peer.py SEED COUNT NOISE. It writes the summary that `session SEED COUNT IMAGE DIGEST NOISE` writes.
"""
import hashlib
import hmac
import sys

from cryptography.exceptions import InvalidTag
from cryptography.hazmat.primitives.ciphers.aead import AESGCM

MULTIPLIER, INCREMENT = 6364136223846793005, 1442695040888963407
OFFICER, USER = 4, 5
OK, AUTH_FAILED = 0, 14
MOST_USES, KEY_BYTES = 1_000_000, 32
RESEED_INTERVAL = 1_024
TEXTS = bytes(range(256)) * 17


def u32(number):
    return number.to_bytes(4, "big")


class Generator:
    """HMAC_DRBG with SHA-256 (SP 800-90A Rev. 1, 10.1.2), from the bytes of a file."""

    def __init__(self, noise):
        self.noise, self.key, self.value = noise, bytes(32), b"\1" * 32
        noise.read(1_024)
        self.seed(256 + 128)

    def seed(self, count):
        self.update(self.noise.read(count))
        self.requests = 1

    def update(self, provided):
        for mark in (b"\0", b"\1") if provided else (b"\0",):
            self.key = hmac.digest(self.key, self.value + mark + provided, "sha256")
            self.value = hmac.digest(self.key, self.value, "sha256")

    def draw(self, count):
        if self.requests > RESEED_INTERVAL:
            self.seed(256)
        blocks = []
        for _ in range(0, count, 32):
            self.value = hmac.digest(self.key, self.value, "sha256")
            blocks.append(self.value)
        self.update(b"")
        self.requests += 1
        return b"".join(blocks)[:count]


class Session:
    def __init__(self, noise):
        self.generator, self.statuses, self.payload, self.replies = Generator(noise), [0] * 16, 0, hashlib.sha256()
        self.uses, self.tests = [MOST_USES] * 4, {4, 14}

    def reply(self, service, state=USER, approved=0, status=OK, block=bytes(12), payload=b""):
        head = bytes([0x5C, 1, service, status, state, approved, 0, 0]) + block + u32(len(payload))
        self.replies.update(head + payload)
        self.statuses[status] += 1
        self.payload += len(payload)

    def begin(self):
        for service, state in ((0x01, 1), (0x03, 2), (0x02, 2), (0x02, 2), (0x02, 3), (0x06, OFFICER)):
            self.reply(service, state)
        keys = []
        for _ in range(4):
            keys.append(self.generator.draw(KEY_BYTES))
            self.reply(0x1C, OFFICER, 1)
        self.reply(0x06, USER)
        self.sealing, self.mac_key = AESGCM(keys[0]), keys[2]

    def hash(self, name, test, text):
        self.tests.add(test)
        self.reply(0x10, approved=1, payload=hashlib.new(name, text).digest())

    def mac(self, text):
        self.uses[2] -= 1
        self.reply(0x11, approved=1, payload=hmac.digest(self.mac_key, text, "sha256"))

    def seal(self, text):
        self.tests.add(7)
        iv = self.generator.draw(12)
        self.uses[0] -= 1
        self.reply(0x13, approved=1, payload=iv + self.sealing.encrypt(iv, text, None))

    def open(self, text):
        self.tests.add(8)
        self.uses[0] -= 1
        try:
            payload = self.sealing.decrypt(bytes(12), text + bytes(16), None)
            self.reply(0x15, approved=1, payload=payload)
        except InvalidTag:
            self.reply(0x15, status=AUTH_FAILED)

    def show_status(self):
        self.reply(0x04, block=bytes(2) + sum(1 << test for test in self.tests).to_bytes(2, "big") + bytes(8))

    def show_slot(self, slot):
        block = bytes([1, slot + 1, 1, 1, KEY_BYTES, 0, 0, 0]) + u32(self.uses[slot]) if slot < 4 else bytes(12)
        self.reply(0x0E, block=block)

    def command(self, r):
        which, n = r % 8, r // 256 % 4096
        text = TEXTS[r % 256 : r % 256 + n]
        if which == 0:
            self.hash("sha256", 1, text)
        elif which == 1:
            self.mac(text)
        elif which == 2:
            self.seal(text)
        elif which == 3:
            self.reply(0x1B, approved=1, payload=self.generator.draw(n + 1))
        elif which == 4:
            self.hash("sha512", 3, text)
        elif which == 5:
            self.open(text)
        elif which == 6:
            self.show_status()
        else:
            self.show_slot(n % 16)

    def tell(self):
        print(f"commands {sum(self.statuses)}")
        for status, count in enumerate(self.statuses):
            print(f"status {status} {count}")
        print(f"payload {self.payload}\nstate User\nsha256 {self.replies.hexdigest()}")


def main(seed, count, noise):
    with open(noise, "rb") as file:
        session, x = Session(file), int(seed)
        session.begin()
        for _ in range(int(count)):
            x = (MULTIPLIER * x + INCREMENT) % 2**64
            session.command(x >> 32)
        session.tell()


if __name__ == "__main__":
    main(*sys.argv[1:])

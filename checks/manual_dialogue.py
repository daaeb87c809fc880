#!/usr/bin/env python3
"""Writes the dialogue with keys of docs/INTERFACE.md, whose values come from Python's hashlib, hmac and cryptography.

    python3 checks/manual_dialogue.py            writes the table into the manual
    python3 checks/manual_dialogue.py --check    compares it with what it would write

What is refused, and in which state the module is, is written out here row by row. The noise is the bytes 00 to ff over and over.
"""
import hmac
import os
import sys

from cryptography.hazmat.primitives.ciphers.aead import AESGCM
from cryptography.hazmat.primitives.keywrap import aes_key_wrap, aes_key_wrap_with_padding

MANUAL = os.path.join(os.path.dirname(os.path.abspath(__file__)), "..", "docs", "INTERFACE.md")
HEADING = "## A dialogue with keys"

SERVICES = (
    "PowerOn TestStep RequestTests ShowStatus ShowVersion SelectRole Reset EntryBegin EntryBytes EntryCommit EntryAbort "
    "Zeroise ZeroiseAll ShowSlot ZeroiseTree Hash Mac MacVerify Seal SealIv Open Wrap Unwrap WrapPad UnwrapPad Derive Random "
    "Generate Reseed"
).split()
INIT, SELF_TEST, APPROVED, OFFICER, USER, ENTRY = range(1, 7)
STATUSES = {
    "Ok": 0, "BadBody": 3, "EmptySlot": 6, "WrongKind": 7, "WrongDomain": 8, "Spent": 9, "OccupiedSlot": 10,
    "NotExportable": 11, "BadLength": 12, "AuthFailed": 14, "UnwrapFailed": 15,
}
AES, KEK, MAC, KDF = 1, 2, 3, 4


def mac(key, text):
    return hmac.new(key, text, "sha256").digest()


class Generator:
    """HMAC_DRBG with SHA-256 (SP 800-90A Rev. 1, 10.1.2), seeded by samples in the order of the noise."""

    def __init__(self):
        self.taken = 1024
        self.key, self.value = bytes(32), bytes([1]) * 32
        entropy = self.samples(256)
        self.update(entropy + self.samples(128))

    def samples(self, count):
        self.taken += count
        return bytes(k % 256 for k in range(self.taken - count, self.taken))

    def update(self, provided):
        self.key = mac(self.key, self.value + b"\0" + provided)
        self.value = mac(self.key, self.value)
        if provided:
            self.key = mac(self.key, self.value + b"\1" + provided)
            self.value = mac(self.key, self.value)

    def reseed(self, additional):
        self.update(self.samples(256) + additional)

    def draw(self, length, additional=b""):
        if additional:
            self.update(additional)
        drawn = b""
        while len(drawn) < length:
            self.value = mac(self.key, self.value)
            drawn += self.value
        self.update(additional)
        return drawn[:length]


def derived(key, label, context, length):
    """Counter mode with HMAC-SHA-256 (SP 800-108 Rev. 1, 4.1)."""
    blocks = [
        mac(key, count.to_bytes(4, "big") + label + b"\0" + context + (8 * length).to_bytes(4, "big"))
        for count in range(1, length // 32 + 2)
    ]
    return b"".join(blocks)[:length]


def u32(number):
    return number.to_bytes(4, "big")


class Dialogue:
    """The rows so far, and the state that the last of them left."""

    def __init__(self):
        self.rows, self.state = [], 0

    def say(self, service, words, body=b"", status="Ok", state=None, payload=b"", approved=0, block=b""):
        number = SERVICES.index(service) + 1
        self.state = self.state if state is None else state
        command = bytes([0xC5, 1, number, 0]) + u32(len(body)) + body
        head = bytes([0x5C, 1, number, STATUSES[status], self.state, approved, 0, 0]) + block.ljust(12, b"\0") + u32(len(payload))
        shown = f"`{head.hex()}`" + (f" and `{payload.hex()}`" if payload else "")
        self.rows.append(f"| `{command.hex()}` | {shown} | {service}{', ' if words else ''}{words}: {status} |")

    def refuse(self, service, words, body, status):
        self.say(service, words, body, status)

    def enter(self, words, header, parameter):
        self.say("EntryBegin", words, header, state=ENTRY)
        self.say("EntryBytes", "its bytes", parameter)
        self.say("EntryCommit", "with its check value", mac(parameter, header)[:8], state=OFFICER)

    def show(self, slot, words, header=None, uses=0):
        block = b"" if header is None else bytes([1, *header[1:4], header[8], 0, 0, 0]) + u32(uses)
        self.say("ShowSlot", f"slot {slot}: {words}", bytes([slot]), block=block)


def header(slot, kind, domain, export, uses, length):
    return bytes([slot, kind, domain, export]) + u32(uses) + bytes([length])


def target(slot, kind, export, uses):
    return bytes([slot, kind, export]) + u32(uses)


def sealed(key, iv, aad, text):
    return AESGCM(key).encrypt(iv, text, aad)


def begin(dialogue):
    dialogue.say("PowerOn", "period 0", u32(0), state=INIT)
    dialogue.say("RequestTests", "", state=SELF_TEST)
    dialogue.say("TestStep", "HMAC-SHA-256")
    dialogue.say("TestStep", "the image")
    dialogue.say("TestStep", "the generator, with 1,408 bytes of noise", state=APPROVED)
    dialogue.say("SelectRole", "officer", bytes([1]), state=OFFICER)


def make_keys(dialogue, generator):
    """Slots 0 to 2: a wrapping key, an AES key that is drawn, and the same one unwrapped. Gives the two keys."""
    kek = bytes(range(16))
    dialogue.enter("slot 0, a wrapping key of 16 bytes, Approved, 9 uses", header(0, KEK, 1, 0, 9, 16), kek)
    generated = header(1, AES, 1, 1, 5, 32)
    key = generator.draw(32)
    dialogue.say("Generate", "slot 1, an AES key of 32 bytes, Approved, exportable, 5 uses; approved", generated, approved=1)
    dialogue.refuse("Generate", "the same again; its 32 bytes are drawn and lost", generated, "OccupiedSlot")
    generator.draw(32)
    dialogue.show(1, "an AES key of 32 bytes, all 5 uses left", generated, 5)
    wrapped = aes_key_wrap(kek, key)
    dialogue.say("Wrap", "under slot 0 the parameter of slot 1; approved", bytes([0, 1]), payload=wrapped, approved=1)
    dialogue.refuse("Wrap", "one slot twice", bytes([0, 0]), "BadBody")
    into = target(2, AES, 0, 3)
    dialogue.say("Unwrap", "under slot 0 into slot 2, an AES key, not exportable, 3 uses; approved", b"\0" + into + wrapped, approved=1)
    dialogue.refuse("Unwrap", "the same again; slot 2 is full", b"\0" + into + wrapped, "OccupiedSlot")
    changed = bytes([wrapped[0] ^ 1]) + wrapped[1:]
    dialogue.refuse("Unwrap", "into slot 3, with one bit turned", b"\0" + target(3, AES, 0, 3) + changed, "UnwrapFailed")
    dialogue.refuse("Wrap", "the parameter of slot 2, which isn't exportable", bytes([0, 2]), "NotExportable")
    dialogue.show(0, "four uses left of nine: Wrap, three times Unwrap, and the refused Wrap spent one each", header(0, KEK, 1, 0, 9, 16), 4)
    return kek, key


def derive_and_wrap(dialogue, kek):
    """Slots 4 to 6: a derivation key, a MAC key of 20 bytes that is derived, and the same one unwrapped with padding."""
    source = bytes(range(32))
    dialogue.enter("slot 4, a derivation key of 32 bytes, Approved, 2 uses", header(4, KDF, 1, 0, 2, 32), source)
    label, context = b"label", b"context"
    body = b"\4" + target(5, MAC, 1, 7) + bytes([20, len(label)]) + label + context
    made = derived(source, label, context, 20)
    words = "from slot 4 into slot 5, a MAC key of 20 bytes, exportable, 7 uses, `label`, `context`; approved"
    dialogue.say("Derive", words, body, approved=1)
    dialogue.refuse("Derive", "the same again; a use of slot 4 is spent", body, "OccupiedSlot")
    dialogue.refuse("Derive", "once more; both uses are spent, which is looked at first", body, "Spent")
    wrapped = aes_key_wrap_with_padding(kek, made)
    dialogue.refuse("Wrap", "the 20 bytes of slot 5, not a multiple of 8", bytes([0, 5]), "BadLength")
    dialogue.say("WrapPad", "under slot 0 the parameter of slot 5; approved", bytes([0, 5]), payload=wrapped, approved=1)
    dialogue.refuse("UnwrapPad", "into slot 6 as an AES key, which 20 bytes don't make", b"\0" + target(6, AES, 0, 1) + wrapped, "BadLength")
    words = "the same as a MAC key, not exportable, 1 use; approved"
    dialogue.say("UnwrapPad", words, b"\0" + target(6, MAC, 0, 1) + wrapped, approved=1)
    return made


def draw(dialogue, generator):
    drawn = generator.draw(16)
    dialogue.say("Random", "16 bytes; approved", u32(16), payload=drawn, approved=1)
    drawn = generator.draw(16, b"more")
    dialogue.say("Random", "16 bytes, with the additional input `more`; approved", u32(16) + b"more", payload=drawn, approved=1)
    generator.reseed(b"")
    dialogue.say("Reseed", "with 256 bytes of noise; approved", approved=1)
    drawn = generator.draw(16)
    dialogue.say("Random", "16 bytes of the new seed; approved", u32(16), payload=drawn, approved=1)
    dialogue.refuse("Random", "no byte", u32(0), "BadBody")


def use_keys(dialogue, generator, key, made):
    zero_key = bytes(32)
    dialogue.enter("slot 8, an AES key of 32 zero bytes, Other, 2 uses", header(8, AES, 0, 0, 2, 32), zero_key)
    dialogue.say("SelectRole", "user", bytes([2]), state=USER)
    text, aad = b"attack at dawn", b"to: all"
    iv = generator.draw(12)
    out = sealed(key, iv, aad, text)
    words = f"under slot 1, a tag of 16 bytes, AAD `{aad.decode()}`, text `{text.decode()}`; approved"
    body = bytes([1, 16]) + u32(len(aad)) + aad + text
    dialogue.say("Seal", words, body, payload=iv + out, approved=1)
    generator.draw(12)
    dialogue.refuse("Seal", "under slot 9, which is empty; an IV is drawn and lost", b"\x09" + body[1:], "EmptySlot")
    opening = bytes([2, 16, 12]) + u32(len(aad)) + iv + aad
    dialogue.say("Open", "under slot 2, which has the same key; approved", opening + out, payload=text, approved=1)
    dialogue.refuse("Open", "with the last bit of the tag turned; a use is spent", opening + out[:-1] + bytes([out[-1] ^ 1]), "AuthFailed")
    zeros = bytes([8, 16, 12]) + u32(0) + bytes(12) + bytes(16)
    out = sealed(zero_key, bytes(12), b"", bytes(16))
    dialogue.say("SealIv", "under slot 8, an IV of 12 zero bytes, no AAD, 16 zero bytes of text; not approved", zeros, payload=out)
    dialogue.refuse("SealIv", "under slot 1, of the domain Approved; no use is spent", b"\1" + zeros[1:], "WrongDomain")
    dialogue.refuse("Seal", "under slot 5, a MAC key", b"\5" + body[1:], "WrongKind")
    dialogue.say("Mac", "eight bytes, SHA-256, slot 6, of no text; approved", bytes([6, 1, 8]), payload=mac(made, b"")[:8], approved=1)


def zeroise_trees(dialogue):
    dialogue.say("SelectRole", "officer", bytes([1]), state=OFFICER)
    dialogue.say("ZeroiseTree", "slot 0, and what was unwrapped under it: the slots 2 and 6", b"\0")
    for slot in (0, 2, 6):
        dialogue.show(slot, "empty")
    dialogue.show(1, "as it was, four uses left: it was drawn, and only wrapped under slot 0", header(1, AES, 1, 1, 5, 32), 4)
    dialogue.show(5, "as it was", header(5, MAC, 1, 1, 7, 20), 7)
    dialogue.say("ZeroiseTree", "slot 4, and slot 5, which was derived from it", b"\4")
    dialogue.show(5, "empty")


def table():
    dialogue, generator = Dialogue(), Generator()
    begin(dialogue)
    kek, key = make_keys(dialogue, generator)
    made = derive_and_wrap(dialogue, kek)
    draw(dialogue, generator)
    use_keys(dialogue, generator, key, made)
    zeroise_trees(dialogue)
    return ["| Command | Reply | In words |", "|---|---|---|", *dialogue.rows], generator.taken


def main(words):
    rows, taken = table()
    with open(MANUAL, encoding="utf-8") as manual:
        lines = manual.read().split("\n")
    at = lines.index("| Command | Reply | In words |", lines.index(HEADING))
    end = next(place for place in range(at, len(lines)) if not lines[place].startswith("|"))
    if words == ["--check"]:
        same = lines[at:end] == rows
        print(f"rows: {'' if same else 'FAILED: '}checks/manual_dialogue.py: the dialogue with keys {'is' if same else 'is NOT'} what it writes")
        return 0 if same else 1
    with open(MANUAL, "w", encoding="utf-8") as manual:
        manual.write("\n".join(lines[:at] + rows + lines[end:]))
    print(f"{len(rows) - 2} commands, {taken} bytes of noise")
    return 0


if __name__ == "__main__":
    sys.exit(main(sys.argv[1:]))

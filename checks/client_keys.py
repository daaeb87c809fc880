"""Uses the services that seal, wrap, derive, draw and zeroise through examples/client.py, and compares with Python's hmac and cryptography.

usage: client_keys.py PROGRAM. The noise is the bytes 00 to ff over and over, so that what is drawn is known.
"""
import hmac
import os
import signal
import sys
import tempfile

from cryptography.hazmat.primitives import hashes, keywrap
from cryptography.hazmat.primitives.ciphers.aead import AESGCM
from cryptography.hazmat.primitives.kdf.kbkdf import CounterLocation, KBKDFHMAC, Mode

HERE = os.path.dirname(os.path.abspath(__file__))
sys.path[:0] = [os.path.join(HERE, "..", "examples"), HERE]
from client import Algorithm, Domain, Ended, Kind, Module, Role, Status, image_digest, parts_of_sealed
from manual_dialogue import Generator

SECONDS = 60
PASS, RESEED, DRAWS_OF_A_SEED = 1408, 256, 1024
LARGEST_SEALED = 65_594
# The largest text that Seal makes into what Open can take, with a tag of 16 bytes.
LARGEST_OPENED = 65_565
ROOM = tempfile.TemporaryDirectory()


class Wrong(Exception):
    """The program did something else than expected."""


def too_late(*_):
    raise Wrong(f"it did not come to an end within {SECONDS} seconds")


def in_room(name, content):
    path = os.path.join(ROOM.name, name)
    with open(path, "wb") as file:
        file.write(content)
    return path


def counted(length, first=0):
    return bytes((first + k) % 251 for k in range(length))


class Ready:
    """A module in the officer's role, over so many samples, and the generator that it has then."""

    def __init__(self, samples=PASS + RESEED, period=0):
        image, digest = in_room("image", b"abc"), in_room("digest", image_digest(b"abc").encode())
        noise = in_room("noise", bytes(k % 256 for k in range(samples)))
        self.module, self.generator, self.period = Module([PROGRAM, "serve", image, digest, noise]), Generator(), period

    def __enter__(self):
        signal.alarm(SECONDS)
        done(self.module.power_on(self.period))
        done(self.module.run_tests())
        done(self.module.select_role(Role.Officer))
        return self.module, self.generator

    def __exit__(self, kind, *_):
        signal.alarm(0)
        if kind is None:
            expect("exit status", self.module.end(), 0)
        else:
            self.module.process.kill()


def expect(what, got, wanted):
    if got != wanted:
        got, wanted = (it.hex() if isinstance(it, bytes) else it for it in (got, wanted))
        raise Wrong(f"{what}: {got}\n    in place of {wanted}")


def done(reply, payload=b"", approved=None):
    """Expects that a command was done, and gives its payload where any may come (None)."""
    expect(f"status of service {reply.service:#04x}", Status(reply.status).name, "Ok")
    if payload is not None:
        expect(f"payload of service {reply.service:#04x}", reply.payload, payload)
    if approved is not None:
        expect(f"indicator of service {reply.service:#04x}", reply.is_approved, approved)
    return reply.payload


def refused(reply, status, code=0):
    expect(f"status of service {reply.service:#04x}", Status(reply.status).name, status.name)
    told = (reply.payload, reply.is_approved, reply.error_code, any(reply.block))
    expect(f"refusal of service {reply.service:#04x}", told, (b"", False, code, False))


def uses_left(module, slot):
    return int.from_bytes(done_block(module.show_slot(slot))[8:], "big")


def done_block(reply):
    done(reply)
    return reply.block


def sealing():
    """Seal under keys of each length: the IV is drawn, and cryptography gives the same ciphertext and tag; Open gives the text back."""
    shapes = [(0, 0, 16), (1, 0, 12), (15, 1, 13), (16, 16, 14), (17, 15, 15), (64, 20, 16), (1024, 300, 16), (LARGEST_OPENED, 0, 16)]
    with Ready() as (module, generator):
        for slot, size in enumerate((16, 24, 32)):
            done(module.enter(slot, Kind.AesKey, counted(size)))
        done(module.select_role(Role.User))
        for slot, size in enumerate((16, 24, 32)):
            for length, aad_length, tag_length in shapes:
                text, aad, iv = counted(length, 7), counted(aad_length, 9), generator.draw(12)
                sealed = AESGCM(counted(size)).encrypt(iv, text, aad)
                wanted = iv + sealed[: length + tag_length]
                done(module.seal(slot, text, aad, tag_length), wanted, True)
                done(module.open(slot, *parts_of_sealed(wanted, tag_length), aad), text, True)
        text, iv = counted(LARGEST_SEALED), generator.draw(12)
        done(module.seal(2, text), iv + AESGCM(counted(32)).encrypt(iv, text, b""), True)


def given_ivs():
    """SealIv and Open under IVs of several lengths, which cryptography has from 8 to 128 bytes."""
    with Ready() as (module, _):
        done(module.enter(0, Kind.AesKey, counted(32), Domain.Other, uses=1000))
        done(module.enter(1, Kind.AesKey, counted(32), Domain.Approved, uses=5))
        done(module.select_role(Role.User))
        for length in (8, 11, 12, 13, 16, 17, 64, 128):
            for text_length in (0, 16, 33, 4096):
                iv, text, aad = counted(length, 3), counted(text_length), counted(text_length % 40)
                sealed = AESGCM(counted(32)).encrypt(iv, text, aad)
                done(module.seal_iv(0, iv, text, aad), sealed, False)
                done(module.open(0, iv, sealed[:-16], sealed[-16:], aad), text, False)
        # an IV of 1 and of 255 bytes, by the module itself
        for length in (1, 255):
            sealed = done(module.seal_iv(0, counted(length), b"text", b"aad", 12), None, False)
            done(module.open(0, counted(length), sealed[:-12], sealed[-12:], b"aad"), b"text", False)
        refused(module.seal_iv(1, bytes(12), b"text"), Status.WrongDomain)
        expect("uses left", uses_left(module, 1), 5)


def broken_seals():
    """What isn't what was sealed isn't opened, and spends a use."""
    with Ready() as (module, _):
        done(module.enter(0, Kind.AesKey, counted(16), uses=100))
        done(module.enter(1, Kind.AesKey, counted(32), uses=100))
        done(module.select_role(Role.User))
        iv, ciphertext, tag = parts_of_sealed(done(module.seal(0, b"some text", b"aad"), None, True))
        changed = lambda it: it[:-1] + bytes([it[-1] ^ 0x80])
        attempts = [
            (0, changed(iv), ciphertext, tag, b"aad"),
            (0, iv, changed(ciphertext), tag, b"aad"),
            (0, iv, ciphertext, changed(tag), b"aad"),
            (0, iv, ciphertext, tag, b"aae"),
            (0, iv, ciphertext[:-1], tag, b"aad"),
            (1, iv, ciphertext, tag, b"aad"),
        ]
        for attempt in attempts:
            refused(module.open(*attempt), Status.AuthFailed)
        expect("uses left", (uses_left(module, 0), uses_left(module, 1)), (94, 99))
        done(module.open(0, iv, ciphertext, tag, b"aad"), b"some text", True)


def wrapping():
    """KW of each length that it takes and KWP of each from 1 to 64, both ways, for wrapping keys of each length."""
    for size in (16, 24, 32):
        with Ready() as (module, _):
            kek = counted(size, 40)
            done(module.enter(0, Kind.WrappingKey, kek, Domain.Other))
            for length in range(1, 65):
                key = counted(length, 90)
                done(module.enter(1, Kind.MacKey, key, Domain.Other, exportable=True))
                padded = keywrap.aes_key_wrap_with_padding(kek, key)
                done(module.wrap_pad(0, 1), padded, False)
                done(module.unwrap_pad(0, 2, Kind.MacKey, padded), b"", False)
                is_whole = length >= 16 and length % 8 == 0
                wrapped = keywrap.aes_key_wrap(kek, key) if is_whole else b""
                done(module.wrap(0, 1), wrapped, False) if is_whole else refused(module.wrap(0, 1), Status.BadLength)
                if is_whole:
                    done(module.unwrap(0, 3, Kind.MacKey, wrapped), b"", False)
                done(module.select_role(Role.User))
                for slot in (2, 3) if is_whole else (2,):
                    mac = hmac.new(key, b"text", "sha256").digest()
                    done(module.mac(slot, Algorithm.SHA256, 32, b"text"), mac, False)
                done(module.select_role(Role.Officer))
                for slot in (1, 2, 3):
                    done(module.zeroise(slot))


def wrong_wrappings():
    """Bytes that nothing wraps to, a length that doesn't fit, and a full target; each spends a use of the wrapping key."""
    with Ready() as (module, _):
        kek = counted(32)
        done(module.enter(0, Kind.WrappingKey, kek, uses=100))
        done(module.enter(1, Kind.MacKey, counted(20), exportable=True, uses=7))
        wrapped, padded = keywrap.aes_key_wrap(kek, counted(32)), keywrap.aes_key_wrap_with_padding(kek, counted(7))
        for place in range(0, 40, 13):
            turned = wrapped[:place] + bytes([wrapped[place] ^ 1]) + wrapped[place + 1 :]
            refused(module.unwrap(0, 2, Kind.AesKey, turned), Status.UnwrapFailed)
        refused(module.unwrap(0, 2, Kind.AesKey, padded + bytes(8)), Status.UnwrapFailed)
        refused(module.unwrap_pad(0, 2, Kind.MacKey, wrapped), Status.UnwrapFailed)
        refused(module.unwrap_pad(0, 2, Kind.MacKey, padded), Status.BadLength)
        refused(module.unwrap_pad(0, 2, Kind.AesKey, padded), Status.BadLength)
        refused(module.unwrap(0, 1, Kind.AesKey, wrapped), Status.OccupiedSlot)
        refused(module.wrap(0, 1), Status.BadLength)
        expect("uses left", (uses_left(module, 0), uses_left(module, 1)), (90, 7))
        expect("the target", any(done_block(module.show_slot(2))), False)
        done(module.unwrap(0, 2, Kind.AesKey, wrapped, exportable=False, uses=3), b"", True)
        refused(module.wrap(0, 2), Status.NotExportable)
        refused(module.wrap(0, 3), Status.EmptySlot)
        refused(module.unwrap(1, 3, Kind.AesKey, wrapped), Status.WrongKind)
        refused(module.unwrap(4, 3, Kind.AesKey, wrapped), Status.EmptySlot)


def deriving():
    """Derive against cryptography's KBKDF, by the MAC that the derived key makes."""
    with Ready() as (module, _):
        source = counted(64)
        done(module.enter(0, Kind.DerivationKey, source))
        for length, label, context in ((14, b"", b""), (32, b"label", b"context"), (33, counted(255), b""), (64, b"l", counted(255))):
            done(module.derive(0, 1, Kind.MacKey, length, label, context), b"", True)
            kdf = KBKDFHMAC(hashes.SHA256(), Mode.CounterMode, length, 4, 4, CounterLocation.BeforeFixed, label, context, None)
            done(module.select_role(Role.User))
            mac = hmac.new(kdf.derive(source), b"text", "sha512").digest()
            done(module.mac(1, Algorithm.SHA512, 64, b"text"), mac, True)
            refused(module.derive(0, 1, Kind.MacKey, length, label, context), Status.OccupiedSlot)
            done(module.select_role(Role.Officer))
            done(module.zeroise(1))


def drawing():
    """Random, Generate and Reseed against the generator of SP 800-90A; a Seal that is refused and a Generate that is draw too."""
    with Ready() as (module, generator):
        for length in (1, 31, 32, 33, 65_536):
            done(module.random(length), generator.draw(length), True)
        for additional in (b"a", counted(256)):
            done(module.random(40, additional), generator.draw(40, additional), True)
        for length in (0, 65_537):
            refused(module.random(length), Status.BadBody)
        refused(module.random(1, bytes(257)), Status.BadBody)
        done(module.generate(0, Kind.MacKey, 32), b"", True)
        key = generator.draw(32)
        refused(module.generate(0, Kind.MacKey, 32), Status.OccupiedSlot)
        generator.draw(32)
        done(module.reseed(b"more"), b"", True)
        generator.reseed(b"more")
        done(module.select_role(Role.User))
        done(module.mac(0, Algorithm.SHA256, 32, b"text"), hmac.new(key, b"text", "sha256").digest(), True)
        refused(module.seal(9, b"text"), Status.EmptySlot)
        generator.draw(12)
        refused(module.seal(0, b"text"), Status.WrongKind)
        generator.draw(12)
        done(module.random(32), generator.draw(32), True)


def many_draws():
    """1,024 draws take no noise, and the next takes 256 bytes; then there are none left."""
    with Ready() as (module, generator):
        for _ in range(DRAWS_OF_A_SEED):
            done(module.random(1), generator.draw(1))
        generator.reseed(b"")
        done(module.random(16), generator.draw(16))
        refused(module.reseed(), Status.NoiseFault, 0x0300)


def trees():
    """ZeroiseTree empties a slot and all that came of it, also where a slot between was zeroised; other slots stay."""
    for zeroises_between in (False, True):
        with Ready() as (module, _):
            for slot in (3, 6):
                done(module.enter(slot, Kind.DerivationKey, counted(32, slot), uses=20))
            done(module.derive(3, 4, Kind.DerivationKey, 32, uses=9))
            done(module.derive(4, 5, Kind.MacKey, 32, uses=9))
            if zeroises_between:
                done(module.zeroise(4))
            done(module.zeroise_tree(3))
            for slot in (3, 4, 5):
                expect(f"slot {slot}", any(done_block(module.show_slot(slot))), False)
            expect("slot 6", uses_left(module, 6), 20)
            done(module.derive(6, 5, Kind.MacKey, 32, uses=9))
            done(module.zeroise_tree(3))
            expect("slot 5", uses_left(module, 5), 9)


def period_ends():
    """A service whose use is a period's last gives what it gives, and tests are due after it, also where it is refused."""
    for slot in (0, 9):
        with Ready(samples=2 * PASS, period=2) as (module, generator):
            done(module.enter(0, Kind.AesKey, counted(32)))
            done(module.select_role(Role.User))
            done(module.random(8), generator.draw(8))
            reply = module.seal(slot, b"text")
            iv = generator.draw(12)
            if slot == 0:
                done(reply, iv + AESGCM(counted(32)).encrypt(iv, b"text", b""), True)
            else:
                refused(reply, Status.EmptySlot)
            expect("state", reply.state, 2)
            refused(module.random(8), Status.NotInState)


CASES = [
    sealing, given_ivs, broken_seals, wrapping, wrong_wrappings, deriving, drawing, many_draws, trees, period_ends,
]


def main():
    signal.signal(signal.SIGALRM, too_late)
    failed = 0
    for case in CASES:
        try:
            case()
        except (Wrong, Ended, OSError) as error:
            failed += 1
            print(f"client: {case.__name__} FAILED: {error}")
    print(f"client: of the services with keys {len(CASES) - failed} passed, {failed} failed")
    return 1 if failed else 0


if __name__ == "__main__":
    PROGRAM = os.path.abspath(sys.argv[1])
    sys.exit(main())

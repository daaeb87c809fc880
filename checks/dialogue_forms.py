"""Dialogues on what is refused before a service begins: unknown services, states, bodies that break their form, frames."""
from dialogue_bodies import (
    Dialogue,
    counted,
    derive,
    header,
    mac,
    mac_verify,
    opening,
    random,
    seal,
    seal_iv,
    target,
    unwrapping,
)
from machine import frame
from machine_bodies import LARGEST_BODY, Kind, Service, State, Status, permits

AES_HEADER, MAC_HEADER = header(1, Kind.AES), header(1, Kind.MAC)
NUMBERS = [*range(0x20), 0x7E, 0x80, 0xFF]


def patched(body, place, *values):
    """A body, each time with another byte at one place."""
    return [body[:place] + bytes([value]) + body[place + 1 :] for value in values]


def bad_headers(body, longest):
    """Each field of a header out of its range, and a body that is too short or too long."""
    return [
        *patched(body, 0, 16, 255),
        *patched(body, 1, 0, 5),
        *patched(body, 2, 2),
        *patched(body, 3, 2),
        body[:4] + bytes(4) + body[8:],
        *patched(body, 8, 0, longest + 1),
        body[:-1],
        body + b"\0",
        b"",
    ]


HEADERS_THAT_FIT = [header(1, kind, 0, 0, 1, length) for kind in (Kind.AES, Kind.KEK) for length in (16, 24, 32)] + [
    header(15, kind, domain, 1, 2**32 - 1, length)
    for kind in (Kind.MAC, Kind.KDF)
    for domain, length in ((0, 1), (0, 64), (1, 14), (1, 64))
]
HEADERS_THAT_DO_NOT = [header(1, kind, 0, 0, 1, length) for kind in (Kind.AES, Kind.KEK) for length in (0, 8, 15, 17, 23, 25, 33, 64)] + [
    header(1, kind, domain, 0, 1, length)
    for kind in (Kind.MAC, Kind.KDF)
    for domain, length in ((0, 0), (0, 65), (1, 1), (1, 13), (1, 65))
]
BAD_HEADERS = bad_headers(AES_HEADER, 64) + HEADERS_THAT_DO_NOT
ONE_SLOT = ([b"\0", b"\x0f"], [b"", b"\x10", b"\xff", b"\0\0"])
NO_BODY = ([b""], [b"\0"])


def bad_targets(before, body):
    """Each field of a target out of its range, where the target begins at the place 1."""
    at = len(before)
    return [
        *patched(body, at, 16, before[0]),
        *patched(body, at + 1, 0, 5),
        *patched(body, at + 2, 2),
        body[: at + 3] + bytes(4) + body[at + 7 :],
    ]


WRAPPED = unwrapping(0, 1, Kind.AES, counted(24))
PADDED = unwrapping(0, 1, Kind.AES, counted(24))
DERIVED = derive(0, 1, Kind.KDF, 32, b"l", b"c")
SEALED = seal(1, b"text", b"aad", 12)
SEALED_IV = seal_iv(1, b"i", b"text", b"aad", 12)
OPENED = opening(1, b"i", b"text", counted(12), b"aad")

# For each service some bodies of its form, and some that break it.
BODIES = {
    Service.TEST_STEP: NO_BODY,
    Service.REQUEST_TESTS: NO_BODY,
    Service.SHOW_STATUS: NO_BODY,
    Service.SHOW_VERSION: NO_BODY,
    Service.SELECT_ROLE: ([b"\0", b"\1", b"\2"], [b"", b"\3", b"\xff", b"\1\0"]),
    Service.ENTRY_BEGIN: (HEADERS_THAT_FIT, BAD_HEADERS),
    Service.ZEROISE: ONE_SLOT,
    Service.ZEROISE_ALL: NO_BODY,
    Service.SHOW_SLOT: ONE_SLOT,
    Service.ZEROISE_TREE: ONE_SLOT,
    Service.HASH: ([b"\1", b"\2abc", b"\3" + counted(200)], [b"", b"\0abc", b"\4abc", b"\xffabc"]),
    Service.MAC: (
        [mac(0, length, b"", alg) for alg, length in ((1, 1), (1, 32), (2, 48), (3, 64))] + [mac(15)],
        [mac(16), mac(255), mac(0, alg=0), mac(0, alg=4), mac(0, 0), mac(0, 33), mac(0, 49, alg=2), mac(0, 65, alg=3), b"\0\1", b"\0", b""],
    ),
    Service.MAC_VERIFY: (
        [mac_verify(0, counted(length), b"", alg) for alg, length in ((1, 1), (1, 32), (2, 48), (3, 64))],
        [mac_verify(16, b"m"), mac_verify(0, b"m", alg=0), mac_verify(0, b"m", alg=4), mac_verify(0, b""), b"\0\1", b"\0\1\4abc"]
        + [mac_verify(0, counted(length), alg=alg) for alg, length in ((1, 33), (2, 49), (3, 65))],
    ),
    Service.SEAL: (
        [SEALED, seal(15, b""), seal(0, b"", b"a", 16)],
        [*patched(SEALED, 0, 16), *patched(SEALED, 1, 0, 11, 17), *patched(SEALED, 2, 1), *patched(SEALED, 5, 8), SEALED[:5], b""],
    ),
    Service.SEAL_IV: (
        [SEALED_IV, seal_iv(15, b"i", b""), seal_iv(0, counted(255), b"", b"", 16)],
        [*patched(SEALED_IV, 0, 16), *patched(SEALED_IV, 1, 0, 11, 17), *patched(SEALED_IV, 2, 0, 6, 255)]
        + [*patched(SEALED_IV, 3, 1), *patched(SEALED_IV, 6, 8), SEALED_IV[:6], b""],
    ),
    Service.OPEN: (
        [OPENED, opening(15, b"i", b"", counted(16)), opening(0, counted(255), b"", counted(12))],
        [*patched(OPENED, 0, 16), *patched(OPENED, 1, 0, 11, 17), *patched(OPENED, 2, 0, 6, 255)]
        + [*patched(OPENED, 3, 1), *patched(OPENED, 6, 8), opening(1, b"i", b"", counted(12))[:-1], OPENED[:6], b""],
    ),
    Service.WRAP: ([b"\0\1", b"\x0f\0"], [b"\0\0", b"\x0f\x0f", b"\x10\0", b"\0\x10", b"\0", b"\0\1\2", b""]),
    Service.WRAP_PAD: ([b"\0\1", b"\x0f\0"], [b"\0\0", b"\x0f\x0f", b"\x10\0", b"\0\x10", b"\0", b"\0\1\2", b""]),
    Service.UNWRAP: (
        [unwrapping(0, 1, Kind.AES, counted(length), 1, 1) for length in (24, 32, 40)]
        + [unwrapping(15, 0, Kind.KDF, counted(length), 0, 2**32 - 1) for length in (24, 48, 56, 64, 72)],
        [*bad_targets(b"\0", WRAPPED), *patched(WRAPPED, 0, 16), WRAPPED[:8], WRAPPED[:7], b""]
        + [unwrapping(0, 1, Kind.MAC, counted(length)) for length in (0, 8, 16, 23, 25, 71, 73, 80)]
        + [unwrapping(0, 1, kind, counted(length)) for kind in (Kind.AES, Kind.KEK) for length in (48, 64, 72)],
    ),
    Service.UNWRAP_PAD: (
        [unwrapping(0, 1, Kind.AES, counted(length), 1, 1) for length in (16, 24, 32, 40, 48, 72)]
        + [unwrapping(15, 0, Kind.KDF, counted(length), 0, 2**32 - 1) for length in (16, 72)],
        [*bad_targets(b"\0", PADDED), *patched(PADDED, 0, 16), PADDED[:8], PADDED[:7], b""]
        + [unwrapping(0, 1, Kind.MAC, counted(length)) for length in (0, 8, 15, 17, 71, 73, 80)],
    ),
    Service.DERIVE: (
        [derive(0, 1, kind, length) for kind in (Kind.AES, Kind.KEK) for length in (16, 24, 32)]
        + [derive(15, 0, kind, length, counted(255), counted(255), 1, 1) for kind in (Kind.MAC, Kind.KDF) for length in (14, 64)],
        [*bad_targets(b"\0", DERIVED), *patched(DERIVED, 0, 16), *patched(DERIVED, 9, 3), DERIVED[:9], DERIVED[:8], b""]
        + [derive(0, 1, kind, length) for kind in (Kind.MAC, Kind.KDF) for length in (0, 13, 65, 255)]
        + [derive(0, 1, kind, length) for kind in (Kind.AES, Kind.KEK) for length in (0, 14, 17, 33, 64)]
        + [derive(0, 1, Kind.KDF, 32, b"", counted(256)), derive(0, 1, Kind.KDF, 32, b"l", counted(256))],
    ),
    Service.RANDOM: (
        [random(1), random(16, b"a"), random(1, counted(256))],
        [random(0), random(65_537), random(2**32 - 1), random(1, counted(257)), random(0, b"a"), b"\0\0\1", b""],
    ),
    Service.GENERATE: (HEADERS_THAT_FIT[:1] + HEADERS_THAT_FIT[-1:], BAD_HEADERS),
    Service.RESEED: ([b"", b"a", counted(256)], [counted(257)]),
    Service.RESET: NO_BODY,
}
IN_ENTRY = {
    Service.ENTRY_BYTES: ([b"a", counted(64)], [b"", counted(65)]),
    Service.ENTRY_COMMIT: ([], [b"", counted(7), counted(9)]),
    Service.ENTRY_ABORT: ([], [b"\0"]),
}


def bodies():
    """Each service's bodies, over empty slots: those that break its form are refused, and the others are looked at."""
    d = Dialogue()
    for body in (b"", b"\0\0\0", b"\0\0\0\0\0", (1_000_001).to_bytes(4, "big"), b"\xff" * 4):
        d.ask(Service.POWER_ON, body, Status.BAD_BODY)
    d.start()
    for service, (good, bad) in BODIES.items():
        for body, is_good in [(body, False) for body in bad] + [(body, True) for body in good]:
            if not is_good or service != Service.TEST_STEP:
                restore(d, service)
                reply = d.ask(service, body, None if is_good else Status.BAD_BODY)
                assert not (d.strict and is_good and reply.status == Status.BAD_BODY), (service, body)
    return d


def restore(d, service):
    """Brings about a state that permits a service."""
    if d.machine.state == State.ENTRY:
        d.ask(Service.ENTRY_ABORT)
    if d.machine.state == State.SELF_TEST and service != Service.TEST_STEP:
        d.tests()
    if service == Service.TEST_STEP and d.machine.state != State.SELF_TEST:
        d.ask(Service.REQUEST_TESTS)
    if not permits(d.machine.state, service):
        d.user() if permits(State.USER, service) else d.officer()


def entry_bodies():
    """The bodies of an entry, which stays as it is where one is refused."""
    d = Dialogue().start()
    d.officer()
    for service, (good, bad) in IN_ENTRY.items():
        d.ask(Service.ENTRY_BEGIN, header(1, Kind.MAC, 0, 0, 1, 64))
        for body in bad:
            d.ask(service, body, Status.BAD_BODY)
        for body in good:
            d.ask(service, body, None)
        d.ask(Service.ENTRY_ABORT)
    return d


def broken(service):
    """A body that is of no service's form."""
    return b"\xff" * (257 if service == Service.RESEED else 65)


def ask_all(d):
    """Every number with a body that is broken, and each service that isn't permitted with a body of its form."""
    for number in NUMBERS:
        if number not in list(Service):
            d.ask(number, broken(number), Status.UNKNOWN_SERVICE)
        elif permits(d.machine.state, Service(number)):
            d.ask(number, broken(number), Status.BAD_BODY)
        else:
            good = {**BODIES, **IN_ENTRY}.get(number, ([],))[0]
            for body in [broken(number), *good[:1]]:
                d.ask(number, body, Status.NOT_IN_STATE)
    d.show_status()


def states():
    """In each state: what isn't known, what isn't permitted, and what is permitted but not of its form."""
    d = Dialogue()
    ask_all(d)
    d.ask(Service.POWER_ON, bytes(4))
    ask_all(d)
    d.ask(Service.REQUEST_TESTS)
    for _ in range(3):
        ask_all(d)
        d.ask(Service.TEST_STEP)
    ask_all(d)
    d.enter(3, Kind.MAC)
    ask_all(d)
    d.user()
    ask_all(d)
    d.officer()
    d.ask(Service.ENTRY_BEGIN, header(3, Kind.AES, 0, 0, 1, 16))
    ask_all(d)
    d.ask(Service.ENTRY_ABORT)
    d.show(3)
    d.use_up_noise()
    d.ask(Service.RESEED, b"", Status.NOISE_FAULT)
    ask_all(d)
    d.ask(Service.RESET)
    ask_all(d)
    return d


def numbered():
    """Numbered commands among others: what a number that isn't the next is refused for, and what a refused command counts."""
    d = Dialogue()
    d.ask(Service.SHOW_STATUS, b"", Status.OK, 1)
    d.ask(Service.SHOW_STATUS, b"", Status.OUT_OF_ORDER, 1)
    d.ask(Service.SHOW_STATUS)
    d.ask(0x7E, b"", Status.UNKNOWN_SERVICE, 2)
    d.ask(0x7E, b"", Status.OUT_OF_ORDER, 2)
    d.ask(Service.HASH, b"", Status.OUT_OF_ORDER, 5)
    d.ask(Service.HASH, b"", Status.NOT_IN_STATE, 3)
    d.ask(Service.POWER_ON, b"", Status.OUT_OF_ORDER, 0)
    d.ask(Service.POWER_ON, b"", Status.BAD_BODY, 4)
    d.ask(Service.POWER_ON, bytes(4), Status.OUT_OF_ORDER, 2**32 - 1)
    d.ask(Service.POWER_ON, bytes(4), Status.OK, 5)
    d.ask(Service.REQUEST_TESTS, b"", Status.OK, 6)
    d.tests()
    d.ask(Service.SELECT_ROLE, b"\2", Status.OK, 7)
    d.ask(Service.HASH, b"\1abc", Status.OUT_OF_ORDER, 7)
    d.ask(Service.HASH, b"\1abc", Status.OK, 8)
    d.ask(Service.RANDOM, random(16), Status.OUT_OF_ORDER, 10)
    d.ask(Service.RANDOM, random(16), Status.OK, 9)
    d.ask(Service.MAC, mac(0), Status.EMPTY_SLOT, 10)
    d.ask(Service.RESET)
    d.ask(Service.SHOW_VERSION, b"", Status.OK, 11)
    d.ask(Service.RESET, b"", Status.OK, 12)
    d.ask(Service.SHOW_STATUS, b"", Status.OUT_OF_ORDER, 1)
    d.ask(Service.SHOW_STATUS, b"", Status.OK, 13)
    return d


WHOLE = frame(Service.SHOW_VERSION, b"")
ENDS = {
    "end_byte_0": WHOLE + b"\xc4",
    "end_byte_1_is_0": WHOLE + b"\xc5\0",
    "end_byte_1_is_3": WHOLE + b"\xc5\3",
    "end_byte_3": WHOLE + b"\xc5\1\4\xff",
    "end_length": WHOLE + b"\xc5\1\4\0" + (LARGEST_BODY + 1).to_bytes(4, "big"),
    "end_length_numbered": WHOLE + b"\xc5\2\4\0" + (LARGEST_BODY + 1).to_bytes(4, "big"),
    "end_in_header": WHOLE + WHOLE[:7],
    "end_in_body": WHOLE + frame(Service.SHOW_VERSION, b"ab")[:-1],
    "end_in_number": WHOLE + frame(Service.SHOW_VERSION, b"", 1)[:-1],
    "end_in_numbered_body": WHOLE + frame(Service.SHOW_VERSION, b"a", 1)[:-1],
    "end_largest_body": WHOLE + frame(Service.SHOW_STATUS, bytes(LARGEST_BODY)),
}


def ended(tail):
    """A stream that ends by these bytes."""
    d = Dialogue()
    d.end(tail)
    return d


DIALOGUES = {
    "bodies": bodies,
    "entry_bodies": entry_bodies,
    "states": states,
    "numbered": numbered,
    **{name: lambda tail=tail: ended(tail) for name, tail in ENDS.items()},
}

"""The services of the module, the states that permit them, and the forms of their bodies, as the model reads them."""
from enum import IntEnum
from types import SimpleNamespace

LARGEST_BODY = 65_600


class State(IntEnum):
    OFF, INIT, SELF_TEST, APPROVED, OFFICER, USER, ENTRY, ERROR = range(8)


class Status(IntEnum):
    OK, UNKNOWN_SERVICE, NOT_IN_STATE, BAD_BODY, TEST_FAILED, NOISE_FAULT, EMPTY_SLOT, WRONG_KIND = range(8)
    WRONG_DOMAIN, SPENT, OCCUPIED_SLOT, NOT_EXPORTABLE, BAD_LENGTH, CHECK_FAILED, AUTH_FAILED, UNWRAP_FAILED = range(8, 16)
    OUT_OF_ORDER = 16


class Service(IntEnum):
    POWER_ON, TEST_STEP, REQUEST_TESTS, SHOW_STATUS, SHOW_VERSION, SELECT_ROLE, RESET = range(0x01, 0x08)
    ENTRY_BEGIN, ENTRY_BYTES, ENTRY_COMMIT, ENTRY_ABORT, ZEROISE, ZEROISE_ALL, SHOW_SLOT = range(0x08, 0x0F)
    ZEROISE_TREE = 0x0F
    HASH, MAC, MAC_VERIFY, SEAL, SEAL_IV, OPEN, WRAP, UNWRAP, WRAP_PAD, UNWRAP_PAD = range(0x10, 0x1A)
    DERIVE, RANDOM, GENERATE, RESEED = range(0x1A, 0x1E)


class Kind(IntEnum):
    AES, KEK, MAC, KDF = range(1, 5)


OTHER, APPROVED = 0, 1

# The states that permit a service, by the first letters of Off, Init, selfTest, Approved, Officer, User, Entry, and X for Error.
LETTERS = dict(zip("FITAOUEX", State))
STATES = {
    Service.POWER_ON: "F",
    Service.TEST_STEP: "T",
    Service.REQUEST_TESTS: "IAOU",
    Service.SHOW_STATUS: "FITAOUEX",
    Service.SHOW_VERSION: "FITAOUEX",
    Service.SELECT_ROLE: "AOU",
    Service.RESET: "ITAOUEX",
    Service.ENTRY_BEGIN: "O",
    Service.ENTRY_BYTES: "E",
    Service.ENTRY_COMMIT: "E",
    Service.ENTRY_ABORT: "E",
    Service.ZEROISE: "O",
    Service.ZEROISE_ALL: "O",
    Service.SHOW_SLOT: "OU",
    Service.ZEROISE_TREE: "O",
    Service.HASH: "OU",
    Service.MAC: "U",
    Service.MAC_VERIFY: "U",
    Service.SEAL: "U",
    Service.SEAL_IV: "U",
    Service.OPEN: "U",
    Service.WRAP: "O",
    Service.UNWRAP: "O",
    Service.WRAP_PAD: "O",
    Service.UNWRAP_PAD: "O",
    Service.DERIVE: "OU",
    Service.RANDOM: "OU",
    Service.GENERATE: "O",
    Service.RESEED: "O",
}


def permits(state, service):
    return state in (LETTERS[letter] for letter in STATES[service])


def is_cryptographic(service):
    return service >= Service.HASH


def fits(kind, domain, length):
    """Whether a parameter of this kind and domain may have this length."""
    if kind in (Kind.AES, Kind.KEK):
        return length in (16, 24, 32)
    return (14 if domain == APPROVED else 1) <= length <= 64


class BadBody(Exception):
    pass


def need(holds):
    if not holds:
        raise BadBody


class Body:
    """Takes the fields of a body, from its front."""

    def __init__(self, content):
        self.content = content

    def take(self, count):
        need(count <= len(self.content))
        taken, self.content = self.content[:count], self.content[count:]
        return taken

    def number(self, width, lowest, highest):
        value = int.from_bytes(self.take(width), "big")
        need(lowest <= value <= highest)
        return value

    def slot(self):
        return self.number(1, 0, 15)

    def kind(self):
        return Kind(self.number(1, 1, 4))

    def flag(self):
        return self.number(1, 0, 1)

    def uses(self):
        return self.number(4, 1, 2**32 - 1)

    def alg(self):
        return self.number(1, 1, 3)

    def rest(self, lowest=0, highest=LARGEST_BODY):
        need(lowest <= len(self.content) <= highest)
        return self.take(len(self.content))


def header(b):
    read = dict(target=b.slot(), kind=b.kind(), domain=b.flag(), export=b.flag(), uses=b.uses(), length=b.number(1, 0, 255))
    need(fits(read["kind"], read["domain"], read["length"]))
    return read


def target(b, other):
    read = dict(target=b.slot(), kind=b.kind(), export=b.flag(), uses=b.uses())
    need(read["target"] != other)
    return read


def mac_size(alg):
    return {1: 32, 2: 48, 3: 64}[alg]


def mac(b):
    slot, alg = b.slot(), b.alg()
    return dict(slot=slot, alg=alg, length=b.number(1, 1, mac_size(alg)), text=b.rest())


def mac_verify(b):
    slot, alg = b.slot(), b.alg()
    length = b.number(1, 1, mac_size(alg))
    return dict(slot=slot, alg=alg, length=length, mac=b.take(length), text=b.rest())


def seal(b):
    slot, length, aad_length = b.slot(), b.number(1, 12, 16), b.number(4, 0, 2**32 - 1)
    return dict(slot=slot, length=length, aad=b.take(aad_length), text=b.rest())


def seal_iv(b):
    slot, length = b.slot(), b.number(1, 12, 16)
    iv_length, aad_length = b.number(1, 1, 255), b.number(4, 0, 2**32 - 1)
    return dict(slot=slot, length=length, iv=b.take(iv_length), aad=b.take(aad_length), text=b.rest())


def open_(b):
    read = seal_iv(b)
    need(read["length"] <= len(read["text"]))
    cut = len(read["text"]) - read["length"]
    return dict(read, text=read["text"][:cut], tag=read["text"][cut:])


def wrapping(b):
    kek, second = b.slot(), b.slot()
    need(kek != second)
    return dict(kek=kek, second=second)


def unwrapping(b):
    kek = b.slot()
    read = dict(target(b, kek), kek=kek, wrapped=b.rest(24, 72))
    length = len(read["wrapped"])
    need(length % 8 == 0 and fits(read["kind"], OTHER, length - 8))
    return read


def unwrapping_padded(b):
    kek = b.slot()
    read = dict(target(b, kek), kek=kek, wrapped=b.rest(16, 72))
    need(len(read["wrapped"]) % 8 == 0)
    return read


def derive(b):
    source = b.slot()
    read = dict(target(b, source), source=source, length=b.number(1, 0, 255))
    need(fits(read["kind"], APPROVED, read["length"]))
    label_length = b.number(1, 0, 255)
    return dict(read, label=b.take(label_length), context=b.rest(0, 255))


def nothing(_):
    return {}


def one_slot(b):
    return dict(slot=b.slot())


FORMS = {
    Service.POWER_ON: lambda b: dict(period=b.number(4, 0, 1_000_000)),
    Service.TEST_STEP: nothing,
    Service.REQUEST_TESTS: nothing,
    Service.SHOW_STATUS: nothing,
    Service.SHOW_VERSION: nothing,
    Service.SELECT_ROLE: lambda b: dict(role=b.number(1, 0, 2)),
    Service.RESET: nothing,
    Service.ENTRY_BEGIN: header,
    Service.ENTRY_BYTES: lambda b: dict(piece=b.rest(1, 64)),
    Service.ENTRY_COMMIT: lambda b: dict(check=b.take(8)),
    Service.ENTRY_ABORT: nothing,
    Service.ZEROISE: one_slot,
    Service.ZEROISE_ALL: nothing,
    Service.SHOW_SLOT: one_slot,
    Service.ZEROISE_TREE: one_slot,
    Service.HASH: lambda b: dict(alg=b.alg(), text=b.rest()),
    Service.MAC: mac,
    Service.MAC_VERIFY: mac_verify,
    Service.SEAL: seal,
    Service.SEAL_IV: seal_iv,
    Service.OPEN: open_,
    Service.WRAP: wrapping,
    Service.UNWRAP: unwrapping,
    Service.WRAP_PAD: wrapping,
    Service.UNWRAP_PAD: unwrapping_padded,
    Service.DERIVE: derive,
    Service.RANDOM: lambda b: dict(length=b.number(4, 1, 65_536), additional=b.rest(0, 256)),
    Service.GENERATE: header,
    Service.RESEED: lambda b: dict(additional=b.rest(0, 256)),
}


def read_request(service, content):
    """The fields that a body spells; BadBody where it isn't of the service's form."""
    body = Body(content)
    read = FORMS[service](body)
    need(not body.content)
    return SimpleNamespace(**read)

"""Dialogues on the services that use a slot's key: what they answer, and every refusal of a slot in its order."""
import machine_functions as functions
from dialogue_bodies import (
    Dialogue,
    counted,
    derive,
    header,
    mac,
    mac_verify,
    opening,
    seal,
    seal_iv,
    turned,
    unwrapping,
)
from machine_bodies import APPROVED, LARGEST_BODY, OTHER, Kind, Service, State, Status

KEY = counted(32)
ZERO_KEY, ZERO_IV, ZERO_TEXT = bytes(32), bytes(12), bytes(16)
ZERO_SEALED = bytes.fromhex("cea7403d4d606b6e074ec5d3baf39d18d0d1c8a799996bf0265b98b5d48ab919")
IVS = (1, 8, 11, 12, 13, 15, 16, 17, 32, 255)
EDGES = (0, 1, 15, 16, 17, 31, 32, 33)

# The slots of `refusals`: empty, of another kind, the same and spent, and of the service's kind in both domains, for good and for one use.
EMPTY, ANOTHER, ANOTHER_SPENT, PLAIN, LASTING, ONCE, ONCE_APPROVED = 0, 1, 2, 4, 5, 6, 7
TARGET, FULL = 8, 9


def published():
    """A published vector by SealIv in both domains, and by Open with its tag and with another."""
    d = Dialogue().start()
    d.enter(2, Kind.AES, ZERO_KEY, uses=5)
    d.user()
    assert d.ask(Service.SEAL_IV, seal_iv(2, ZERO_IV, ZERO_TEXT)).payload == ZERO_SEALED or not d.strict
    d.ask(Service.OPEN, opening(2, ZERO_IV, ZERO_SEALED[:16], turned(ZERO_SEALED[16:])), Status.AUTH_FAILED)
    d.show(2)
    d.ask(Service.OPEN, opening(2, ZERO_IV, ZERO_SEALED[:16], ZERO_SEALED[16:]))
    d.show(2)
    d.zeroise(2)
    d.enter(2, Kind.AES, ZERO_KEY, APPROVED, uses=5)
    d.user()
    d.ask(Service.SEAL_IV, seal_iv(2, ZERO_IV, ZERO_TEXT), Status.WRONG_DOMAIN)
    d.show(2)
    d.ask(Service.OPEN, opening(2, ZERO_IV, ZERO_SEALED[:16], ZERO_SEALED[16:]))
    d.show(2)
    return d


def open_what_was_sealed(d, slot, body, iv, aad, length):
    """Opens a sealed text, and refuses it with a byte turned at each of its parts."""
    cut = len(body) - length
    d.ask(Service.OPEN, opening(slot, iv, body[:cut], body[cut:], aad))
    d.ask(Service.OPEN, opening(slot, iv, body[:cut], turned(body[cut:]), aad), Status.AUTH_FAILED)
    d.ask(Service.OPEN, opening(slot, iv, body[:cut], turned(body[cut:], 0), aad), Status.AUTH_FAILED)
    d.ask(Service.OPEN, opening(slot, turned(iv), body[:cut], body[cut:], aad), Status.AUTH_FAILED)
    if cut:
        d.ask(Service.OPEN, opening(slot, iv, turned(body[:cut]), body[cut:], aad), Status.AUTH_FAILED)
    if aad:
        d.ask(Service.OPEN, opening(slot, iv, body[:cut], body[cut:], turned(aad)), Status.AUTH_FAILED)


def sealing():
    """Keys, tags, IVs, additional data and texts of every length that matters, sealed and opened."""
    d = Dialogue().start()
    for slot, size in ((1, 16), (2, 24), (3, 32)):
        d.enter(slot, Kind.AES, counted(size), uses=1_000)
        d.enter(slot + 3, Kind.AES, counted(size), APPROVED, uses=1_000)
    d.user()
    cases = [(12, 20, 20, tag) for tag in range(12, 17)] + [(iv, 3, 18, 16) for iv in IVS]
    cases += [(12, aad, 16, 13) for aad in EDGES] + [(12, 16, text, 14) for text in EDGES] + [(255, 0, 0, 12), (16, 4_096, 300, 15)]
    for number, (iv, aad, text, tag) in enumerate(cases):
        slot = 1 + number % 3
        sealed = d.ask(Service.SEAL_IV, seal_iv(slot, counted(iv), counted(text), counted(aad), tag)).payload
        open_what_was_sealed(d, slot, sealed, counted(iv), counted(aad), tag)
        sealed = d.ask(Service.SEAL, seal(slot + 3, counted(text), counted(aad), tag)).payload
        open_what_was_sealed(d, slot + 3, sealed[12:], sealed[:12], counted(aad), tag)
    d.show_all()
    return d


def largest():
    """The largest bodies: all of it text, and all of it additional data."""
    d = Dialogue().start()
    d.enter(1, Kind.AES, counted(16))
    d.user()
    long = bytes(k % 251 for k in range(LARGEST_BODY))
    d.ask(Service.SEAL, seal(1, long[: LARGEST_BODY - 6]))
    d.ask(Service.SEAL, seal(1, b"", long[: LARGEST_BODY - 6]))
    d.ask(Service.SEAL_IV, seal_iv(1, b"\1", long[: LARGEST_BODY - 8], b"", 16))
    ciphertext, tag = functions.gcm_seal(counted(16), b"\2", b"", long[: LARGEST_BODY - 7 - 1 - 12])
    d.ask(Service.OPEN, opening(1, b"\2", ciphertext, tag[:12]))
    d.ask(Service.OPEN, opening(1, b"\2", turned(ciphertext[:5_000]), tag), Status.AUTH_FAILED)
    d.show(1)
    return d


def hashes_and_macs():
    """Each hash and each MAC, whole and cut, of texts around a block's edge."""
    d = Dialogue().start()
    for slot, size in ((1, 1), (2, 14), (3, 63), (4, 64)):
        d.enter(slot, Kind.MAC, counted(size), APPROVED if size >= 14 else OTHER)
    d.user()
    for alg, size in ((1, 32), (2, 48), (3, 64)):
        for length in (0, 3, 55, 56, 63, 64, 65, 111, 112, 127, 128, 129):
            d.ask(Service.HASH, bytes([alg]) + counted(length))
        for slot in (1, 2, 3, 4):
            for length in (1, 3, 4, 5, size - 1, size):
                refused = Status.WRONG_DOMAIN if slot > 1 and length < 4 else Status.OK
                whole = functions.hmac(alg, counted((0, 1, 14, 63, 64)[slot]), b"abc")
                d.ask(Service.MAC, mac(slot, length, alg=alg), refused)
                d.ask(Service.MAC_VERIFY, mac_verify(slot, whole[:length], alg=alg), refused)
                d.ask(Service.MAC_VERIFY, mac_verify(slot, turned(whole[:length]), alg=alg), refused or Status.AUTH_FAILED)
                d.ask(Service.MAC_VERIFY, mac_verify(slot, turned(whole[:length], 0), alg=alg), refused or Status.AUTH_FAILED)
        d.show(1, 2, 3, 4)
    return d


def short_macs():
    """A MAC too short to be approved is refused before a spent slot is, and spends nothing."""
    d = Dialogue().start()
    d.enter(3, Kind.MAC, counted(14), APPROVED, uses=1)
    d.enter(4, Kind.MAC, counted(14), uses=1)
    d.user()
    for status in (Status.OK, Status.SPENT):
        d.ask(Service.MAC, mac(3, 3), Status.WRONG_DOMAIN)
        d.ask(Service.MAC_VERIFY, mac_verify(3, b"abc"), Status.WRONG_DOMAIN)
        d.ask(Service.MAC, mac(3, 4), status)
        d.ask(Service.MAC, mac(4, 3), status)
        d.show(3, 4)
    return d


def to(d, service):
    """The role of a service that uses keys."""
    d.officer() if service in (Service.WRAP, Service.UNWRAP, Service.WRAP_PAD, Service.UNWRAP_PAD) else d.user()


def enter_sources(d, kind):
    """The slots that a service may find in its first slot's place."""
    another = Kind.MAC if kind != Kind.MAC else Kind.AES
    d.enter(ANOTHER, another)
    d.enter(ANOTHER_SPENT, another, domain=APPROVED, uses=1)
    d.user()
    d.ask(*((Service.MAC, mac(ANOTHER_SPENT)) if another == Kind.MAC else (Service.SEAL, seal(ANOTHER_SPENT, b""))))
    d.enter(PLAIN, kind)
    d.enter(LASTING, kind, domain=APPROVED)
    d.enter(ONCE, kind, uses=1)
    d.enter(ONCE_APPROVED, kind, domain=APPROVED, uses=1)


def refused_by_source(service, kind, body, worse, approved=True, status=Status.OK):
    """Every refusal of the first slot, with a body that is in order and with one that would be refused later too."""
    d = Dialogue().start()
    enter_sources(d, kind)
    d.enter(FULL, Kind.MAC, counted(7), export=0)
    in_domain = status if approved else Status.WRONG_DOMAIN
    spent_approved = Status.SPENT if approved else Status.WRONG_DOMAIN
    table = [
        (EMPTY, Status.EMPTY_SLOT),
        (ANOTHER, Status.WRONG_KIND),
        (ANOTHER_SPENT, Status.WRONG_KIND),
        (ONCE, status),
        (ONCE, Status.SPENT),
        (ONCE_APPROVED, in_domain),
        (ONCE_APPROVED, spent_approved),
        (PLAIN, status),
        (LASTING, in_domain),
    ]
    for slot, expected in table:
        to(d, service)
        d.ask(service, body(slot), expected)
        if expected != status:
            for another in worse(slot):
                d.ask(service, another, expected)
        d.show(slot, TARGET)
        d.zeroise(TARGET)
    d.show_all()
    return d


def sealed_by(key, iv=ZERO_IV):
    ciphertext, tag = functions.gcm_seal(key, iv, b"", b"text")
    return ciphertext, tag


def with_wrong_tag(slot):
    return [opening(slot, ZERO_IV, sealed_by(KEY)[0], turned(sealed_by(KEY)[1]))]


TAG_OF_ABC = functions.hmac(1, KEY, b"abc")
WRAPPED, PADDED = functions.wrap(False, KEY, counted(16)), functions.wrap(True, KEY, counted(16))
TOO_SHORT = functions.wrap(True, KEY, counted(7))


def later(body_of):
    """A full target, and wrapped bytes that don't open: both come after the first slot's refusals."""
    return lambda slot: [body_of(slot, FULL), body_of(slot, TARGET, True)]


def unwrap_of(wrapped):
    return lambda slot, target=TARGET, broken=False: unwrapping(slot, target, Kind.MAC, turned(wrapped) if broken else wrapped)


def derive_of(slot, target=TARGET, broken=False):
    return derive(slot, target, Kind.MAC)


def no_worse(slot):
    return []


SOURCES = {
    "mac": (Service.MAC, Kind.MAC, mac, no_worse),
    "mac_verify": (Service.MAC_VERIFY, Kind.MAC, lambda slot: mac_verify(slot, TAG_OF_ABC), lambda slot: [mac_verify(slot, turned(TAG_OF_ABC))]),
    "mac_short": (Service.MAC, Kind.MAC, lambda slot: mac(slot, 3), no_worse, False),
    "mac_verify_short": (Service.MAC_VERIFY, Kind.MAC, lambda slot: mac_verify(slot, TAG_OF_ABC[:3]), lambda slot: [mac_verify(slot, b"abc")], False),
    "mac_verify_wrong": (Service.MAC_VERIFY, Kind.MAC, lambda slot: mac_verify(slot, turned(TAG_OF_ABC)), no_worse, True, Status.AUTH_FAILED),
    "seal": (Service.SEAL, Kind.AES, lambda slot: seal(slot, b"text"), no_worse),
    "seal_iv": (Service.SEAL_IV, Kind.AES, lambda slot: seal_iv(slot, ZERO_IV, b"text"), no_worse, False),
    "open": (Service.OPEN, Kind.AES, lambda slot: opening(slot, ZERO_IV, *sealed_by(KEY)), with_wrong_tag),
    "open_wrong": (Service.OPEN, Kind.AES, lambda slot: with_wrong_tag(slot)[0], no_worse, True, Status.AUTH_FAILED),
    "wrap_empty": (Service.WRAP, Kind.KEK, lambda slot: bytes([slot, 12]), lambda slot: [bytes([slot, FULL])], True, Status.EMPTY_SLOT),
    "wrap_kept": (Service.WRAP, Kind.KEK, lambda slot: bytes([slot, FULL]), lambda slot: [bytes([slot, 12])], True, Status.NOT_EXPORTABLE),
    "wrap_pad_empty": (Service.WRAP_PAD, Kind.KEK, lambda slot: bytes([slot, 12]), lambda slot: [bytes([slot, FULL])], True, Status.EMPTY_SLOT),
    "wrap_pad_kept": (Service.WRAP_PAD, Kind.KEK, lambda slot: bytes([slot, FULL]), lambda slot: [bytes([slot, 12])], True, Status.NOT_EXPORTABLE),
    "unwrap": (Service.UNWRAP, Kind.KEK, unwrap_of(WRAPPED), later(unwrap_of(WRAPPED))),
    "unwrap_full": (Service.UNWRAP, Kind.KEK, lambda slot: unwrap_of(WRAPPED)(slot, FULL), no_worse, True, Status.OCCUPIED_SLOT),
    "unwrap_failed": (Service.UNWRAP, Kind.KEK, lambda slot: unwrap_of(turned(WRAPPED))(slot), no_worse, True, Status.UNWRAP_FAILED),
    "unwrap_pad": (Service.UNWRAP_PAD, Kind.KEK, unwrap_of(PADDED), later(unwrap_of(PADDED))),
    "unwrap_pad_full": (Service.UNWRAP_PAD, Kind.KEK, lambda slot: unwrap_of(PADDED)(slot, FULL), no_worse, True, Status.OCCUPIED_SLOT),
    "unwrap_pad_failed": (Service.UNWRAP_PAD, Kind.KEK, lambda slot: unwrap_of(turned(PADDED))(slot), no_worse, True, Status.UNWRAP_FAILED),
    "derive": (Service.DERIVE, Kind.KDF, derive_of, lambda slot: [derive_of(slot, FULL)]),
    "derive_full": (Service.DERIVE, Kind.KDF, lambda slot: derive_of(slot, FULL), no_worse, True, Status.OCCUPIED_SLOT),
}

# Wrap's and WrapPad's second slots: what is full, which flag, which domain and length, and what the KEK in domain Other then answers.
SECONDS = [
    (1, Kind.MAC, counted(14), APPROVED, 0, Status.NOT_EXPORTABLE, Status.NOT_EXPORTABLE),
    (2, Kind.MAC, counted(14), APPROVED, 1, Status.WRONG_DOMAIN, Status.WRONG_DOMAIN),
    (3, Kind.MAC, counted(7), OTHER, 0, Status.NOT_EXPORTABLE, Status.NOT_EXPORTABLE),
    (4, Kind.MAC, counted(7), OTHER, 1, Status.BAD_LENGTH, Status.OK),
    (5, Kind.MAC, counted(8), OTHER, 1, Status.BAD_LENGTH, Status.OK),
    (6, Kind.KDF, counted(15), OTHER, 1, Status.BAD_LENGTH, Status.OK),
    (7, Kind.KDF, counted(16), OTHER, 1, Status.OK, Status.OK),
    (8, Kind.MAC, counted(63), OTHER, 1, Status.BAD_LENGTH, Status.OK),
    (9, Kind.MAC, counted(64), OTHER, 1, Status.OK, Status.OK),
    (10, Kind.AES, counted(24), OTHER, 1, Status.OK, Status.OK),
    (11, Kind.KEK, counted(32), OTHER, 1, Status.OK, Status.OK),
    (12, Kind.MAC, counted(16), APPROVED, 1, Status.WRONG_DOMAIN, Status.WRONG_DOMAIN),
]


def seconds():
    """Every refusal of Wrap's and WrapPad's second slot, two at a time; a use of the KEK is spent in any case."""
    d = Dialogue().start()
    d.enter(0, Kind.KEK, counted(16))
    d.enter(15, Kind.KEK, counted(24), APPROVED)
    for service in (Service.WRAP, Service.WRAP_PAD):
        d.ask(service, b"\0\1", Status.EMPTY_SLOT)
    for slot, kind, key, domain, export, wrapped, padded in SECONDS:
        d.enter(slot, kind, key, domain, export, 2)
        d.ask(Service.WRAP, bytes([0, slot]), wrapped)
        d.show(0, slot)
        d.ask(Service.WRAP_PAD, bytes([0, slot]), padded)
        d.show(0, slot)
        for service in (Service.WRAP, Service.WRAP_PAD):
            d.ask(service, bytes([15, slot]), None)
    d.show_all()
    return d


def spent_second():
    """A second slot with no uses left is wrapped all the same, and isn't spent by it."""
    d = Dialogue().start()
    d.enter(0, Kind.KEK)
    d.enter(1, Kind.MAC, counted(16), export=1, uses=1)
    d.user()
    d.ask(Service.MAC, mac(1))
    d.officer()
    d.ask(Service.WRAP, b"\0\1")
    d.ask(Service.WRAP_PAD, b"\0\1")
    d.show(0, 1)
    return d


def wrapped_vectors():
    """Published wrappings, and each refusal of them."""
    d = Dialogue().start()
    d.enter(0, Kind.KEK, counted(16), uses=9)
    d.enter(1, Kind.AES, bytes.fromhex("00112233445566778899aabbccddeeff"), export=1)
    wrapped = bytes.fromhex("1fa68b0a8112b447aef34bd8fb5a7b829d3e862371d2cfe5")
    assert d.ask(Service.WRAP, b"\0\1").payload == wrapped or not d.strict
    d.ask(Service.WRAP, b"\0\0", Status.BAD_BODY)
    d.ask(Service.UNWRAP, unwrapping(0, 1, Kind.AES, wrapped, 0, 5), Status.OCCUPIED_SLOT)
    d.ask(Service.UNWRAP, unwrapping(0, 1, Kind.AES, turned(wrapped), 0, 5), Status.OCCUPIED_SLOT)
    d.show(0, 1)
    d.zeroise(1)
    d.enter(1, Kind.AES, bytes.fromhex("00112233445566778899aabbccddeeff"))
    d.ask(Service.WRAP, b"\0\1", Status.NOT_EXPORTABLE)
    d.zeroise(1)
    d.ask(Service.UNWRAP, unwrapping(0, 1, Kind.AES, turned(wrapped), 0, 5), Status.UNWRAP_FAILED)
    d.ask(Service.UNWRAP, unwrapping(0, 1, Kind.AES, wrapped, 1, 5))
    d.show(0, 1)
    d.ask(Service.WRAP, b"\0\1")
    return d


def padded_vectors():
    """A published padded wrapping, and opened bytes that don't fit their kind or domain."""
    d = Dialogue().start()
    kek, key = bytes.fromhex("5840df6e29b02af1ab493b705bf16ea1ae8338f4dcc176a8"), bytes.fromhex("466f7250617369")
    padded = bytes.fromhex("afbeb0f07dfbf5419200f2ccb50bb24f")
    d.enter(0, Kind.KEK, kek)
    d.enter(1, Kind.MAC, key, export=1)
    assert d.ask(Service.WRAP_PAD, b"\0\1").payload == padded or not d.strict
    d.ask(Service.WRAP, b"\0\1", Status.BAD_LENGTH)
    d.ask(Service.UNWRAP_PAD, unwrapping(0, 5, Kind.MAC, padded, 0, 10))
    d.ask(Service.UNWRAP_PAD, unwrapping(0, 6, Kind.AES, padded), Status.BAD_LENGTH)
    d.ask(Service.UNWRAP_PAD, unwrapping(0, 6, Kind.AES, turned(padded)), Status.UNWRAP_FAILED)
    d.ask(Service.UNWRAP_PAD, unwrapping(0, 5, Kind.AES, padded), Status.OCCUPIED_SLOT)
    d.enter(2, Kind.KEK, kek, APPROVED)
    d.ask(Service.UNWRAP_PAD, unwrapping(2, 7, Kind.MAC, padded), Status.BAD_LENGTH)
    d.ask(Service.UNWRAP_PAD, unwrapping(2, 7, Kind.KDF, functions.wrap(True, kek, counted(13))), Status.BAD_LENGTH)
    d.ask(Service.UNWRAP_PAD, unwrapping(2, 7, Kind.KDF, functions.wrap(True, kek, counted(14))))
    d.show_all()
    return d


def every_padded_length():
    """A key of each length from 1 to 64 wrapped with padding, opened into another slot, wrapped again and used."""
    d = Dialogue().start()
    d.enter(0, Kind.KEK, counted(32), uses=1_000)
    for length in range(1, 65):
        d.enter(1, Kind.MAC, counted(length)[::-1], export=1)
        padded = d.ask(Service.WRAP_PAD, b"\0\1").payload
        d.ask(Service.UNWRAP_PAD, unwrapping(0, 2, Kind.MAC, padded, 1, 3))
        d.ask(Service.UNWRAP_PAD, unwrapping(0, 3, Kind.MAC, turned(padded)), Status.UNWRAP_FAILED)
        fits = Status.OK if length in (16, 24, 32) else Status.BAD_LENGTH
        d.ask(Service.UNWRAP_PAD, unwrapping(0, 3, Kind.AES, padded, 1, 3), fits)
        d.show(2, 3)
        d.ask(Service.WRAP_PAD, b"\0\2")
        d.zeroise(1, 2, 3)
    d.show(0)
    return d


def every_wrapped_length():
    """A key of each whole number of semiblocks from 2 to 8 wrapped, opened and used, under a KEK of each size."""
    d = Dialogue().start()
    for size in (16, 24, 32):
        for domain in (OTHER, APPROVED):
            d.enter(0, Kind.KEK, counted(size), domain, uses=1_000)
            for length in range(16, 65, 8):
                d.enter(1, Kind.KDF, counted(length)[::-1], domain, 1)
                wrapped = d.ask(Service.WRAP, b"\0\1").payload
                d.ask(Service.UNWRAP, unwrapping(0, 2, Kind.MAC, wrapped, 1, 3))
                d.ask(Service.UNWRAP, unwrapping(0, 3, Kind.MAC, turned(wrapped, 0)), Status.UNWRAP_FAILED)
                d.show(2, 3)
                d.user()
                d.ask(Service.MAC, mac(2))
                d.zeroise(1, 2, 3)
            d.zeroise(0)
    return d


def derivations():
    """Keys of each kind derived from sources in both domains, with labels and contexts at their limits, and used."""
    d = Dialogue().start()
    d.enter(1, Kind.KDF, counted(1), uses=500)
    d.enter(2, Kind.KDF, counted(64), APPROVED, 0, 500)
    cases = [(Kind.MAC, length) for length in (14, 31, 32, 33, 63, 64)] + [(kind, size) for kind in (Kind.AES, Kind.KEK, Kind.KDF) for size in (16, 24, 32)]
    for source in (1, 2):
        for number, (kind, length) in enumerate(cases):
            label, context = counted((0, 1, 255)[number % 3]), counted((0, 255, 1, 64)[number % 4])
            d.ask(Service.DERIVE, derive(source, 3, kind, length, label, context, number % 2, 7 + number))
            d.show(3)
            d.ask(Service.DERIVE, derive(source, 3, kind, length), Status.OCCUPIED_SLOT)
            use(d, kind)
            d.zeroise(3)
    d.show(1, 2)
    return d


def use(d, kind):
    """A reply that tells which key slot 3 holds."""
    if kind == Kind.MAC:
        d.user()
        d.ask(Service.MAC, mac(3))
    elif kind == Kind.AES:
        d.user()
        d.ask(Service.SEAL, seal(3, b"text"))
    elif kind == Kind.KEK:
        use_kek(d)
    else:
        d.ask(Service.DERIVE, derive(3, 4, Kind.MAC))
        d.user()
        d.ask(Service.MAC, mac(4))
        d.zeroise(4)


def use_kek(d):
    domain = d.machine.slots[3].domain
    d.enter(4, Kind.MAC, counted(16), domain, 1)
    d.ask(Service.WRAP, b"\3\4")
    d.zeroise(4)


def lasting_key():
    """A wrapped key of the most uses is unwrapped, seals and opens a long text, and is made zero."""
    d = Dialogue().start()
    d.enter(0, Kind.KEK, counted(32), APPROVED)
    key = counted(64)[32:]
    d.ask(Service.UNWRAP, unwrapping(0, 1, Kind.AES, functions.wrap(False, counted(32), key), 0, 2**32 - 1))
    d.show(1)
    d.user()
    sealed = d.ask(Service.SEAL, seal(1, counted(4_096), counted(20))).payload
    d.ask(Service.OPEN, opening(1, sealed[:12], sealed[12:-16], sealed[-16:], counted(20)))
    d.show(1)
    d.officer()
    d.ask(Service.ZEROISE_ALL)
    d.show(0, 1)
    return d


def entries():
    """Entries that are committed, refused in their order, given up, and of two pieces."""
    d = Dialogue().start()
    d.officer()
    d.ask(Service.ENTRY_BEGIN, header(3, Kind.MAC, APPROVED, 0, 100, 4), Status.BAD_BODY)
    d.enter(3, Kind.MAC, b"Jefe")
    d.user()
    d.ask(Service.MAC, mac(3, 32, b"what do ya want for nothing?"))
    d.officer()
    for slot in (3, 4):
        head = header(slot, Kind.KDF, APPROVED, 1, 2**32 - 1, 64)
        right = functions.hmac(1, counted(64), head)[:8]
        full = slot == 3
        for pieces, check, status in (
            ([64], right, Status.OCCUPIED_SLOT if full else Status.OK),
            ([64], turned(right), Status.OCCUPIED_SLOT),
            ([63], right, Status.BAD_LENGTH),
            ([63], turned(right, 0), Status.BAD_LENGTH),
        ):
            d.ask(Service.ENTRY_BEGIN, head)
            for piece in pieces:
                d.ask(Service.ENTRY_BYTES, counted(64)[:piece])
            d.ask(Service.ENTRY_COMMIT, check, status)
            d.show(slot)
    d.zeroise(4)
    for check, status in ((turned(right), Status.CHECK_FAILED), (turned(right, 0), Status.CHECK_FAILED), (right, Status.OK)):
        d.ask(Service.ENTRY_BEGIN, head)
        d.ask(Service.ENTRY_BYTES, counted(64)[:1])
        d.ask(Service.ENTRY_BYTES, counted(64), Status.BAD_LENGTH)
        d.ask(Service.ENTRY_BYTES, counted(64)[1:])
        d.ask(Service.ENTRY_BYTES, b"a", Status.BAD_LENGTH)
        d.ask(Service.ENTRY_COMMIT, check[:7], Status.BAD_BODY)
        d.ask(Service.ENTRY_COMMIT, check, status)
        d.show(4)
    d.ask(Service.ENTRY_BEGIN, header(5, Kind.AES, 0, 0, 1, 16))
    d.ask(Service.ENTRY_BYTES, counted(16))
    d.ask(Service.ENTRY_ABORT)
    d.ask(Service.ENTRY_BEGIN, header(5, Kind.AES, 0, 0, 1, 16))
    d.ask(Service.ENTRY_COMMIT, bytes(8), Status.BAD_LENGTH)
    d.show(5)
    return d


DIALOGUES = {
    "published": published,
    "sealing": sealing,
    "largest": largest,
    "hashes_and_macs": hashes_and_macs,
    "short_macs": short_macs,
    **{f"source_of_{name}": lambda case=case: refused_by_source(*case) for name, case in SOURCES.items()},
    "seconds": seconds,
    "spent_second": spent_second,
    "wrapped_vectors": wrapped_vectors,
    "padded_vectors": padded_vectors,
    "every_padded_length": every_padded_length,
    "every_wrapped_length": every_wrapped_length,
    "derivations": derivations,
    "lasting_key": lasting_key,
    "entries": entries,
}

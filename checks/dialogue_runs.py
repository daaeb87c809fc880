"""Dialogues on draws and noise, periods and first uses, and zeroising."""
import machine_functions as functions
from dialogue_bodies import (
    MOST_RESEEDS,
    Dialogue,
    counted,
    derive,
    header,
    mac,
    mac_verify,
    opening,
    random,
    seal,
    seal_iv,
    turned,
    unwrapping,
)
from machine import RESEED_INTERVAL
from machine_bodies import APPROVED, OTHER, Kind, Service, State, Status

IV = bytes(12)
WRAPPED, PADDED = functions.wrap(False, counted(32), counted(16)), functions.wrap(True, counted(32), counted(16))


def draws():
    """Random at its limits, additional inputs at theirs, and what another draw before it changes."""
    d = Dialogue().start()
    d.user()
    for body in (random(1), random(32), random(33, b"a"), random(32, counted(256)), random(65_536)):
        d.ask(Service.RANDOM, body)
    d.ask(Service.RANDOM, random(65_537), Status.BAD_BODY)
    d.ask(Service.RANDOM, random(16))
    d.officer()
    for body in (b"", b"a", counted(256)):
        d.ask(Service.RESEED, body)
        d.ask(Service.RANDOM, random(16))
    for slot, kind, domain, length in ((0, Kind.AES, 0, 16), (1, Kind.MAC, 0, 1), (2, Kind.MAC, 1, 64), (3, Kind.KDF, 1, 14)):
        d.ask(Service.GENERATE, header(slot, kind, domain, slot % 2, 9, length))
        d.ask(Service.GENERATE, header(slot, Kind.KEK, domain, 0, 1, 32), Status.OCCUPIED_SLOT)
        d.show(slot)
    d.ask(Service.RANDOM, random(16))
    d.user()
    d.ask(Service.MAC, mac(1))
    d.ask(Service.MAC, mac(2))
    d.ask(Service.SEAL, seal(0, b"text"))
    d.ask(Service.DERIVE, derive(3, 4, Kind.MAC))
    d.ask(Service.MAC, mac(4))
    d.show_status()
    return d


def sealed_on_nothing(sealing):
    """Random after a Seal on an empty slot, which still draws, and without it."""
    d = Dialogue().start()
    d.user()
    if sealing:
        d.ask(Service.SEAL, seal(9, b"\0"), Status.EMPTY_SLOT)
    d.ask(Service.RANDOM, random(12))
    return d


def draw_many(d, count):
    """So many draws, by each service that draws, refused ones among them."""
    d.user()
    for _ in range(count - 3):
        d.ask(Service.RANDOM, random(1))
    d.ask(Service.SEAL, seal(9, b""), Status.EMPTY_SLOT)
    d.officer()
    d.ask(Service.GENERATE, header(8, Kind.MAC, 0, 0, 1, 1))
    d.ask(Service.GENERATE, header(8, Kind.MAC, 0, 0, 1, 1), Status.OCCUPIED_SLOT)


def draw_after_the_interval():
    """The draw after 1,024 others takes 256 samples; its additional input isn't the reseed's. Then the noise is used up."""
    d = Dialogue().start()
    draw_many(d, RESEED_INTERVAL)
    d.ask(Service.RANDOM, random(40, b"additional"))
    d.use_up_noise()
    d.ask(Service.RESEED, b"", Status.NOISE_FAULT)
    d.show_status()
    return d


def noise_ends(service, body):
    """The noise ends in the reseed of a draw, whatever its service would be refused for later; its first test was made before."""
    d = Dialogue().start()
    d.enter(3, Kind.MAC)
    d.use_up_noise()
    for _ in range(RESEED_INTERVAL):
        d.ask(Service.RANDOM, random(1))
    d.user() if service == Service.SEAL else d.officer()
    d.ask(service, body, Status.NOISE_FAULT)
    d.ask(Service.SHOW_SLOT, b"\3", Status.NOT_IN_STATE)
    d.show_status()
    d.ask(Service.RESET)
    d.show_status()
    d.ask(Service.REQUEST_TESTS)
    d.ask(Service.TEST_STEP)
    d.ask(Service.TEST_STEP)
    d.ask(Service.TEST_STEP, b"", Status.NOISE_FAULT)
    d.ask(Service.SELECT_ROLE, b"\2", Status.NOT_IN_STATE)
    d.show_status()
    return d


# A use of each cryptographic service that answers Ok over the slots of `with_keys`, by role.
USES = {
    Service.HASH: b"\2abc",
    Service.MAC: mac(3),
    Service.MAC_VERIFY: mac_verify(3, functions.hmac(3, counted(32), b"abc"), alg=3),
    Service.SEAL: seal(1, b"text", b"aad"),
    Service.SEAL_IV: seal_iv(1, IV, b"text"),
    Service.OPEN: opening(1, IV, *functions.gcm_seal(counted(32), IV, b"", b"text")),
    Service.WRAP: b"\2\5",
    Service.UNWRAP: unwrapping(2, 8, Kind.MAC, WRAPPED),
    Service.WRAP_PAD: b"\2\5",
    Service.UNWRAP_PAD: unwrapping(2, 9, Kind.MAC, PADDED),
    Service.DERIVE: derive(4, 10, Kind.MAC),
    Service.RANDOM: random(16),
    Service.GENERATE: header(11, Kind.MAC),
    Service.RESEED: b"",
}
# A use of each, but of those that no slot can refuse, that a slot refuses or the engine.
REFUSED_USES = {
    Service.MAC: (mac(15), Status.EMPTY_SLOT),
    Service.MAC_VERIFY: (mac_verify(3, bytes(32)), Status.AUTH_FAILED),
    Service.SEAL: (seal(15, b""), Status.EMPTY_SLOT),
    Service.SEAL_IV: (seal_iv(3, IV, b""), Status.WRONG_KIND),
    Service.OPEN: (opening(1, IV, b"", bytes(12)), Status.AUTH_FAILED),
    Service.WRAP: (b"\2\1", Status.NOT_EXPORTABLE),
    Service.UNWRAP: (unwrapping(2, 12, Kind.MAC, turned(WRAPPED)), Status.UNWRAP_FAILED),
    Service.WRAP_PAD: (b"\2\6", Status.EMPTY_SLOT),
    Service.UNWRAP_PAD: (unwrapping(2, 1, Kind.MAC, PADDED), Status.OCCUPIED_SLOT),
    Service.DERIVE: (derive(4, 1, Kind.MAC), Status.OCCUPIED_SLOT),
    Service.GENERATE: (header(1, Kind.MAC), Status.OCCUPIED_SLOT),
}
OF_OFFICER = (Service.WRAP, Service.UNWRAP, Service.WRAP_PAD, Service.UNWRAP_PAD, Service.GENERATE, Service.RESEED)


def with_keys(period=0, domain=OTHER):
    d = Dialogue().start(period)
    for slot, kind in ((1, Kind.AES), (2, Kind.KEK), (3, Kind.MAC), (4, Kind.KDF)):
        d.enter(slot, kind, domain=domain)
    d.enter(5, Kind.MAC, domain=domain, export=1)
    return d


def role_for(d, service):
    d.officer() if service in OF_OFFICER else d.user()


def first_uses(domain):
    """Each service once: its indicator, and which test it adds to those that passed. Tests asked for anew take them all out."""
    d = with_keys(domain=domain)
    for service, body in USES.items():
        refused = domain == APPROVED and service == Service.SEAL_IV
        role_for(d, service)
        d.ask(service, body, Status.WRONG_DOMAIN if refused else Status.OK)
        d.show_status()
    d.ask(Service.REQUEST_TESTS)
    d.show_status()
    d.tests()
    d.show_status()
    for service, (body, status) in REFUSED_USES.items():
        role_for(d, service)
        d.ask(service, body, status)
        d.show_status()
    for alg in (1, 2, 3):
        d.user()
        d.ask(Service.HASH, bytes([alg]))
        d.ask(Service.MAC, mac(3, alg=alg))
        d.show_status()
    d.show_all()
    return d


def periods(uses):
    """With a period of 1, each use makes the tests due, and the role comes back after them."""
    d = with_keys(1)
    for service, body, status in uses:
        role_for(d, service)
        d.ask(service, body, status)
        d.show_status()
        d.ask(service, body, Status.NOT_IN_STATE)
        d.tests()
    d.show_all()
    return d


def counted_uses():
    """What a period of 3 counts: refused uses do, and commands that are of no form, of no state or not cryptographic don't."""
    d = Dialogue().start(3)
    d.user()
    for _ in range(2):
        d.ask(Service.HASH, b"\0", Status.BAD_BODY)
        d.ask(Service.RESEED, b"", Status.NOT_IN_STATE)
        d.ask(Service.SHOW_SLOT, b"\0")
        d.ask(0x7E, b"", Status.UNKNOWN_SERVICE)
        d.ask(Service.HASH, b"\1abc")
        d.show_status()
    d.officer()
    d.show_status()
    d.ask(Service.RESET)
    d.show_status()
    d.ask(Service.REQUEST_TESTS)
    d.tests()
    d.user()
    for _ in range(3):
        d.ask(Service.HASH, b"\1abc")
    d.ask(Service.HASH, b"\1abc", Status.NOT_IN_STATE)
    d.tests()
    d.ask(Service.MAC, mac(0), Status.EMPTY_SLOT)
    d.ask(Service.HASH, b"\1abc")
    d.ask(Service.REQUEST_TESTS)
    d.show_status()
    d.tests()
    for service, body, status in ((Service.HASH, b"\1abc", Status.OK), (Service.HASH, b"\1", Status.OK), (Service.MAC, mac(0), Status.EMPTY_SLOT)):
        d.ask(service, body, status)
        d.show_status()
    return d


def period_ends_in_noise():
    """The use that ends a period finds no noise: the state is Error, and the count stays as it was."""
    d = Dialogue().start(MOST_RESEEDS + 1)
    d.use_up_noise()
    d.show_status()
    d.ask(Service.RESEED, b"", Status.NOISE_FAULT)
    d.show_status()
    d.ask(Service.REQUEST_TESTS, b"", Status.NOT_IN_STATE)
    d.ask(Service.RESET)
    d.show_status()
    return d


def longest_period():
    d = Dialogue().start(1_000_000)
    d.user()
    d.ask(Service.HASH, b"\1")
    d.show_status()
    return d


def zeroising():
    """Slots made zero one by one and all at once; the generator and the other slots stay, and a Reset takes all."""
    d = with_keys()
    d.ask(Service.ZEROISE, b"\3")
    d.ask(Service.ZEROISE, b"\3")
    d.show_all()
    d.user()
    d.ask(Service.MAC, mac(3), Status.EMPTY_SLOT)
    d.ask(Service.SEAL, seal(1, b"text"))
    d.enter(3, Kind.AES, counted(16))
    d.ask(Service.ZEROISE_ALL)
    d.show_all()
    d.ask(Service.RANDOM, random(16))
    d.enter(3, Kind.AES, counted(16))
    d.ask(Service.RESET)
    d.show_status()
    d.ask(Service.REQUEST_TESTS)
    d.tests()
    d.user()
    d.show_all()
    d.ask(Service.RANDOM, random(16))
    return d


def tree(*before):
    """A key, two made from it in turn and one by itself: all but the last go with the first, also where the middle one is gone."""
    d = Dialogue().start()
    d.enter(3, Kind.KDF, domain=APPROVED, uses=20)
    d.enter(6, Kind.MAC)
    d.ask(Service.DERIVE, derive(3, 4, Kind.KDF, uses=9))
    d.ask(Service.DERIVE, derive(4, 5, Kind.MAC, uses=9))
    for service, slot in before:
        d.ask(service, bytes([slot]))
    d.ask(Service.ZEROISE_TREE, b"\3")
    d.show_all()
    return d


def trees_of_wrapped_keys():
    """Unwrapped keys belong to their KEK's tree, and keys derived from them too; a tree's leaf takes nothing else."""
    d = Dialogue().start()
    d.enter(0, Kind.KEK)
    d.enter(1, Kind.KDF)
    d.ask(Service.UNWRAP, unwrapping(0, 2, Kind.KDF, WRAPPED))
    d.ask(Service.UNWRAP_PAD, unwrapping(0, 3, Kind.KEK, PADDED))
    d.ask(Service.DERIVE, derive(2, 4, Kind.AES))
    d.ask(Service.DERIVE, derive(1, 5, Kind.AES))
    d.ask(Service.UNWRAP, unwrapping(3, 6, Kind.MAC, functions.wrap(False, counted(16), counted(24))))
    d.ask(Service.ZEROISE_TREE, b"\4")
    d.show_all()
    d.ask(Service.ZEROISE_TREE, b"\3")
    d.show_all()
    d.ask(Service.ZEROISE_TREE, b"\0")
    d.show_all()
    d.ask(Service.ZEROISE_TREE, b"\0")
    d.enter(2, Kind.MAC)
    d.ask(Service.ZEROISE_TREE, b"\0")
    d.show(2)
    return d


def trees_of_refused_uses():
    """A use that a slot refuses links its target all the same, and one that isn't of its form or of the state doesn't."""
    d = Dialogue().start()
    d.enter(0, Kind.KEK)
    d.enter(1, Kind.KDF)
    for slot in (2, 3, 4, 5, 8):
        d.enter(slot, Kind.MAC)
    d.ask(Service.DERIVE, derive(1, 2, Kind.MAC), Status.OCCUPIED_SLOT)
    d.ask(Service.UNWRAP, unwrapping(1, 3, Kind.MAC, WRAPPED), Status.WRONG_KIND)
    d.ask(Service.UNWRAP_PAD, unwrapping(0, 4, Kind.MAC, turned(PADDED)), Status.OCCUPIED_SLOT)
    d.ask(Service.DERIVE, derive(15, 5, Kind.MAC), Status.EMPTY_SLOT)
    d.ask(Service.UNWRAP, unwrapping(0, 6, Kind.MAC, turned(WRAPPED)), Status.UNWRAP_FAILED)
    d.ask(Service.DERIVE, derive(1, 8, Kind.MAC, 13), Status.BAD_BODY)
    d.user()
    d.ask(Service.UNWRAP, unwrapping(0, 8, Kind.MAC, WRAPPED), Status.NOT_IN_STATE)
    d.enter(6, Kind.MAC)
    # Made from the slot 1, and then linked with the slot 0 too.
    d.ask(Service.DERIVE, derive(1, 9, Kind.MAC))
    d.ask(Service.UNWRAP, unwrapping(0, 9, Kind.MAC, WRAPPED), Status.OCCUPIED_SLOT)
    for slot in (1, 15, 0):
        d.ask(Service.ZEROISE_TREE, bytes([slot]))
        d.show_all()
    return d


def trees_that_are_forgotten():
    """Zeroise forgets where its slot came from, ZeroiseAll and Reset forget all; a slot that was its own ancestor's target stays."""
    d = Dialogue().start()
    for forget in (Service.ZEROISE, Service.ZEROISE_ALL, Service.RESET):
        d.enter(1, Kind.KDF)
        d.ask(Service.DERIVE, derive(1, 2, Kind.KDF))
        d.ask(forget, b"\2" if forget == Service.ZEROISE else b"")
        if forget == Service.RESET:
            d.ask(Service.REQUEST_TESTS)
            d.tests()
        d.enter(2, Kind.MAC)
        d.ask(Service.ZEROISE_TREE, b"\1")
        d.show(1, 2)
        d.zeroise(1, 2)
    d.enter(1, Kind.KDF)
    d.ask(Service.DERIVE, derive(1, 2, Kind.KDF))
    d.ask(Service.DERIVE, derive(2, 1, Kind.MAC), Status.OCCUPIED_SLOT)
    d.ask(Service.DERIVE, derive(1, 3, Kind.MAC))
    d.ask(Service.ZEROISE_TREE, b"\2")
    d.show(1, 2, 3)
    return d


def trees_outlast_tests():
    """Tests that are asked for keep the slots, and what was made from what."""
    d = Dialogue().start()
    d.enter(1, Kind.KDF)
    d.ask(Service.DERIVE, derive(1, 2, Kind.MAC))
    d.ask(Service.REQUEST_TESTS)
    d.tests()
    d.show(1, 2)
    d.ask(Service.ZEROISE_TREE, b"\1")
    d.show(1, 2)
    return d


def compare_draws():
    """That a Seal on an empty slot draws."""
    with_seal, without = sealed_on_nothing(True), sealed_on_nothing(False)
    assert with_seal.replies[-12:] != without.replies[-12:]


DIALOGUES = {
    "draws": draws,
    "random_after_seal": lambda: sealed_on_nothing(True),
    "random_alone": lambda: sealed_on_nothing(False),
    "draw_after_the_interval": draw_after_the_interval,
    "noise_ends_in_random": lambda: noise_ends(Service.RANDOM, random(16)),
    "noise_ends_in_seal": lambda: noise_ends(Service.SEAL, seal(9, b"")),
    "noise_ends_in_generate": lambda: noise_ends(Service.GENERATE, header(3, Kind.MAC)),
    "first_uses": lambda: first_uses(OTHER),
    "first_approved_uses": lambda: first_uses(APPROVED),
    "periods": lambda: periods([(service, body, Status.OK) for service, body in USES.items()]),
    "periods_of_refused_uses": lambda: periods([(service, *use) for service, use in REFUSED_USES.items()]),
    "counted_uses": counted_uses,
    "period_ends_in_noise": period_ends_in_noise,
    "longest_period": longest_period,
    "zeroising": zeroising,
    "tree": tree,
    "tree_without_its_middle": lambda: tree((Service.ZEROISE, 4)),
    "trees_of_wrapped_keys": trees_of_wrapped_keys,
    "trees_of_refused_uses": trees_of_refused_uses,
    "trees_that_are_forgotten": trees_that_are_forgotten,
    "trees_outlast_tests": trees_outlast_tests,
}

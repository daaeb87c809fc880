"""Dialogues over engines of which one call is wrong, from its first turn on or later: known answers that are wrong, the state Error that
follows, and what is handed on where no test tells it.

An engine is told by the number of its call, how many times that is right, and the bit that it turns then (`Faulty` of engine_core, and
`Engine` of machine.py).
"""
from dialogue_bodies import derive, mac, mac_verify, opening, seal, seal_iv, unwrapping
from dialogue_services import (
    HASH_256_ABC,
    HASH_256_ABC_TURNED,
    HASH_ABC,
    JEFE,
    JEFE_BEGUN,
    JEFE_CHECK,
    JEFE_GIVEN,
    NO_PASS,
    OFFICER,
    ONE_PASS,
    POWER_ON,
    READY,
    REQUEST_TESTS,
    RESET,
    TESTED,
    TWO_PASSES,
    UP,
    USER,
    Played,
    gives,
    shows,
)
from machine_bodies import Kind, Service, State, Status

# The numbers of an engine's calls.
HASH, MAC, SEAL, OPEN, WRAP, UNWRAP, DERIVE, INSTANTIATE, RESEED, GENERATE = range(10)

# Once a test failed nothing gives data or changes keys, and no test is made.
IN_ERROR = [
    (Service.POWER_ON, [0, 0, 0, 3], Status.NOT_IN_STATE, State.ERROR),
    (Service.TEST_STEP, b"", Status.NOT_IN_STATE, State.ERROR),
    (Service.REQUEST_TESTS, b"", Status.NOT_IN_STATE, State.ERROR),
    (Service.SHOW_VERSION, b"", Status.OK, State.ERROR, shows(b"SYMMOD 01.00")),
    (Service.SELECT_ROLE, [1], Status.NOT_IN_STATE, State.ERROR),
    (Service.ENTRY_BEGIN, [3, 3, 0, 0, 0, 0, 0, 100, 4], Status.NOT_IN_STATE, State.ERROR),
    (Service.ENTRY_BYTES, b"Jefe", Status.NOT_IN_STATE, State.ERROR),
    (Service.ENTRY_COMMIT, [0] * 8, Status.NOT_IN_STATE, State.ERROR),
    (Service.ENTRY_ABORT, b"", Status.NOT_IN_STATE, State.ERROR),
    (Service.ZEROISE, [3], Status.NOT_IN_STATE, State.ERROR),
    (Service.ZEROISE_ALL, b"", Status.NOT_IN_STATE, State.ERROR),
    (Service.SHOW_SLOT, [3], Status.NOT_IN_STATE, State.ERROR),
    (Service.HASH, b"\x01abc", Status.NOT_IN_STATE, State.ERROR),
    (Service.MAC, b"\x03\x01\x20abc", Status.NOT_IN_STATE, State.ERROR),
    (Service.MAC_VERIFY, b"\x03\x01\x01\x00abc", Status.NOT_IN_STATE, State.ERROR),
]


def failing(service, body):
    """A row whose test fails."""
    return service, body, Status.TEST_FAILED, State.ERROR


def shown(*block):
    """ShowStatus of the state Error: those that passed, the period and the count."""
    return Service.SHOW_STATUS, b"", Status.OK, State.ERROR, shows(block)


# The next test of TestStep answers what it shouldn't.
STEP_FAILS = failing(Service.TEST_STEP, b"")
NONE_PASSED = shown()
MAC_PASSED = shown(0, 0, 0, 0x10)
BOTH_PASSED = shown(0, 0, 0x40, 0x10)
HASH_PASSED = shown(0, 0, 0x40, 0x12)
# The one use of a period was counted before its test failed.
ONE_COUNTED = shown(0, 0, 0x40, 0x10, 0, 0, 0, 1, 0, 0, 0, 1)


def fail(d, before, row, code, after):
    """What comes before a failure, what fails with this error code, the state Error and its end."""
    d.play(before).play([row], IN_ERROR, [after], code=code).play([RESET])


def due_test(call, bit, before, code, after):
    """A test that is due fails, and again where tests are asked for after a Reset. No noise is taken."""
    d = Played(NO_PASS, (9,), (call, 0, bit)).play([POWER_ON])
    fail(d, before, STEP_FAILS, code, after)
    fail(d, before, STEP_FAILS, code, after)
    return d


def image_test():
    """The image is tested with the engine's HMAC, which fails its own test the next time."""
    d = Played(NO_PASS, (7,), (MAC, 1, 3)).play([POWER_ON])
    fail(d, [REQUEST_TESTS, TESTED], STEP_FAILS, 0x0200, MAC_PASSED)
    fail(d, [REQUEST_TESTS], STEP_FAILS, 0x0104, NONE_PASSED)
    return d


def end_of_period(call, row, code):
    """The one use of a period fails, and leads to the state Error and not to the tests."""
    d = Played(ONE_PASS, (7,), (call, 0, 0))
    up = [(Service.POWER_ON, [0, 0, 0, 1], Status.OK, State.INIT), REQUEST_TESTS, TESTED, TESTED, READY, USER]
    fail(d, up, row, code, ONE_COUNTED)
    return d


HASH_FAILS = failing(Service.HASH, b"\1abc")
HASH_ABC_TURNED = (Service.HASH, b"\1abc", Status.OK, State.USER, gives(HASH_256_ABC_TURNED))


def once_tested():
    """What was tested isn't tested again while it counts, and is once tests were asked for."""
    d = Played(TWO_PASSES, (7,), (HASH, 3, 0)).play(UP, [USER, HASH_ABC, HASH_ABC, HASH_ABC_TURNED])
    back_to_user = [REQUEST_TESTS, TESTED, TESTED, (Service.TEST_STEP, b"", Status.OK, State.USER)]
    fail(d, back_to_user, HASH_FAILS, 0x0101, BOTH_PASSED)
    return d


# The slot is empty, and the test of HMAC-SHA-256 passed already: nothing fails.
EMPTY_SLOT = [USER, (Service.MAC, mac(3), Status.EMPTY_SLOT, State.USER)]


def first_use(call, right, before, row, code, after=BOTH_PASSED):
    """The first use of an algorithm fails, before the slots are looked at, which are all empty."""
    d = Played(ONE_PASS, (7,), (call, right, 0)).play(UP, EMPTY_SLOT)
    fail(d, before, row, code, after)
    return d


SEAL_FAILS = failing(Service.SEAL, seal(0, b"abc"))
SEAL_IV_FAILS = failing(Service.SEAL_IV, seal_iv(0, b"i", b"abc"))
OPEN_FAILS = failing(Service.OPEN, opening(0, b"i", b"abc", b"defghijklmno"))
UNWRAPPING = unwrapping(0, 1, Kind.AES, bytes(24), uses=1)
DERIVING = derive(0, 1, Kind.MAC, 16, uses=1)


def handed_on(fault, rows):
    """What an engine answers wrongly once its known answers were right is handed on, or compared with the check value."""
    return Played(ONE_PASS, (9,), fault).play(UP, rows)


# The known answer and the first digest are right, and the next are wrong.
WRONG_DIGESTS = [USER, HASH_ABC, HASH_ABC_TURNED]
# MACs that are wrong once the known answer and the image's were right.
WRONG_MACS = [
    OFFICER,
    JEFE_BEGUN,
    JEFE_GIVEN,
    (Service.ENTRY_COMMIT, JEFE_CHECK, Status.CHECK_FAILED, State.OFFICER),
    (Service.SHOW_SLOT, [3], Status.OK, State.OFFICER),
]
TWO_STEPS = [REQUEST_TESTS, TESTED, TESTED]

DIALOGUES = {
    "fault_of_mac": lambda: due_test(MAC, 3, [REQUEST_TESTS], 0x0104, NONE_PASSED),
    "fault_of_instantiate": lambda: due_test(INSTANTIATE, 3, TWO_STEPS, 0x010E, MAC_PASSED),
    "fault_of_reseed": lambda: due_test(RESEED, 3, TWO_STEPS, 0x010E, MAC_PASSED),
    "fault_of_generate": lambda: due_test(GENERATE, 3, TWO_STEPS, 0x010E, MAC_PASSED),
    "fault_of_image": image_test,
    "fault_in_period_of_hash": lambda: end_of_period(HASH, HASH_FAILS, 0x0101),
    "fault_in_period_of_seal": lambda: end_of_period(SEAL, SEAL_FAILS, 0x0107),
    "fault_once_tested": once_tested,
    "fault_at_sha384": lambda: first_use(HASH, 2, [HASH_ABC], failing(Service.HASH, b"\2abc"), 0x0102, HASH_PASSED),
    "fault_at_sha512": lambda: first_use(HASH, 2, [HASH_ABC], failing(Service.HASH, b"\3abc"), 0x0103, HASH_PASSED),
    "fault_at_hmac384": lambda: first_use(MAC, 2, [], failing(Service.MAC, mac(3, 48, alg=2)), 0x0105),
    "fault_at_hmac512": lambda: first_use(MAC, 2, [], failing(Service.MAC_VERIFY, mac_verify(3, b"\0", alg=3)), 0x0106),
    "fault_at_seal": lambda: first_use(SEAL, 0, [USER], SEAL_FAILS, 0x0107),
    "fault_at_seal_iv": lambda: first_use(SEAL, 0, [USER], SEAL_IV_FAILS, 0x0107),
    "fault_at_open": lambda: first_use(OPEN, 0, [USER], OPEN_FAILS, 0x0108),
    "fault_at_derive": lambda: first_use(DERIVE, 0, [USER], failing(Service.DERIVE, DERIVING), 0x010D),
    "fault_at_wrap": lambda: first_use(WRAP, 0, [OFFICER], failing(Service.WRAP, b"\0\1"), 0x0109),
    "fault_at_unwrap": lambda: first_use(UNWRAP, 0, [OFFICER], failing(Service.UNWRAP, UNWRAPPING), 0x010A),
    "fault_at_wrap_pad": lambda: first_use(WRAP, 0, [OFFICER], failing(Service.WRAP_PAD, b"\0\1"), 0x010B),
    "fault_at_unwrap_pad": lambda: first_use(UNWRAP, 0, [OFFICER], failing(Service.UNWRAP_PAD, UNWRAPPING), 0x010C),
    "fault_of_digests": lambda: handed_on((HASH, 2, 0), WRONG_DIGESTS),
    "fault_of_check_values": lambda: handed_on((MAC, 2, 7), WRONG_MACS),
    "fault_of_no_service": lambda: handed_on((SEAL, 0, 0), [USER, HASH_ABC]),
}

"""Dialogues written row by row, each row with the reply that a person had in mind: digests, MACs, entries, periods, zeroising, and numbered
commands. The model's replies are compared with the rows as the dialogues are written.
"""
import hashlib
import hmac
from itertools import chain

from dialogue_bodies import Dialogue, Surprise, header, mac, mac_verify, turned
from machine import Reply, frame
from machine_bodies import APPROVED, OTHER, Kind, Service, State, Status

# A pass of the tests takes 1,408 samples, and each dialogue has as many as its passes take.
NO_PASS, ONE_PASS, TWO_PASSES, FOUR_PASSES, FIVE_PASSES = 0, 1_408, 2_816, 5_632, 7_040


def gives(payload, approved=1):
    """Of a reply the indicator, the status block and the payload."""
    return approved, b"", bytes(payload)


def shows(block):
    return 0, bytes(block), b""


NOTHING = shows(b"")


class Played(Dialogue):
    """A dialogue of rows. A row is a service, a body, the status, the state, and what else the reply tells."""

    def play(self, *parts, code=0):
        """Rows whose replies have this error code."""
        for row in chain(*parts):
            service, body, status, state, (approved, block, payload) = row if len(row) == 5 else (*row, NOTHING)
            reply = self.ask(service, bytes(body), status)
            wanted = Reply(service, None, status, state, approved, code, block, payload)
            if reply.spelling() != wanted.spelling():
                raise Surprise(f"{service!r}: {reply} in place of {wanted}")
        return self


# What rows are made of, by hashlib and hmac.

def digest(alg, text):
    return hashlib.new(alg, text).digest()


HASH_256_ABC, HASH_256_EMPTY = digest("sha256", b"abc"), digest("sha256", b"")
HASH_384_ABC, HASH_384_EMPTY = digest("sha384", b"abc"), digest("sha384", b"")
HASH_512_ABC, HASH_512_EMPTY = digest("sha512", b"abc"), digest("sha512", b"")
HASH_256_ABC_TURNED = turned(HASH_256_ABC, 0)
JEFE, FOURTEEN, COUNTED = b"Jefe", b"\x0b" * 14, bytes(range(16))
QUESTION = b"what do ya want for nothing?"


def check(key, begin):
    return hmac.new(key, begin, "sha256").digest()[:8]


# A MAC key of four bytes in slot 3, of the domain Other, with 100 uses and with 1.
JEFE_BEGIN, ONCE_BEGIN = header(3, Kind.MAC, OTHER, 0, 100, 4), header(3, Kind.MAC, OTHER, 0, 1, 4)
JEFE_CHECK, ONCE_CHECK = check(JEFE, JEFE_BEGIN), check(JEFE, ONCE_BEGIN)
JEFE_TURNED = turned(JEFE_CHECK)
# A MAC key of fourteen bytes of the domain Approved, in slot 3 with 1 use, and in slot 4 with 100.
FOURTEEN_BEGIN, LASTING_BEGIN = header(3, Kind.MAC, APPROVED, 0, 1, 14), header(4, Kind.MAC, APPROVED, 0, 100, 14)
# An AES key of sixteen bytes in slot 5, with 100 uses.
CIPHER_BEGIN = header(5, Kind.AES, OTHER, 0, 100, 16)

# The MAC of a text under slot 3, with each algorithm, whole and of one byte.
MAC_256, MAC_384, MAC_512 = (hmac.new(JEFE, QUESTION, alg).digest() for alg in ("sha256", "sha384", "sha512"))
ASK_256, ASK_384, ASK_512 = (mac(3, 16 + 16 * alg, QUESTION, alg) for alg in (1, 2, 3))
ASK_BYTE = mac(3, 1, QUESTION)
VERIFY_256, VERIFY_384, VERIFY_512 = (mac_verify(3, whole, QUESTION, alg) for alg, whole in ((1, MAC_256), (2, MAC_384), (3, MAC_512)))
VERIFY_256_TURNED = mac_verify(3, turned(MAC_256), QUESTION)
VERIFY_384_TURNED = mac_verify(3, turned(MAC_384), QUESTION, 2)
VERIFY_512_TURNED = mac_verify(3, turned(MAC_512), QUESTION, 3)
VERIFY_256_FIRST_4 = mac_verify(3, MAC_256[:4], QUESTION)
VERIFY_256_OTHER = mac_verify(3, turned(MAC_256[:4], 0), QUESTION)
# That of no text under the key of fourteen bytes.
MAC_FOURTEEN_4 = hmac.new(FOURTEEN, b"", "sha256").digest()[:4]
VERIFY_LASTING_4 = mac_verify(4, MAC_FOURTEEN_4, b"")
VERIFY_LASTING_4_TURNED = mac_verify(4, turned(MAC_FOURTEEN_4), b"")

# ShowSlot's block of each key: the slot is full, the kind, the domain, the export flag, the length, and the uses left.
JEFE_0, JEFE_1, JEFE_88, JEFE_95, JEFE_98, JEFE_99, JEFE_100 = (
    shows([1, 3, 0, 0, 4, 0, 0, 0, 0, 0, 0, uses]) for uses in (0, 1, 88, 95, 98, 99, 100)
)
FOURTEEN_0, FOURTEEN_1, LASTING_98, LASTING_100 = (shows([1, 3, 1, 0, 14, 0, 0, 0, 0, 0, 0, uses]) for uses in (0, 1, 98, 100))
CIPHER_100 = shows([1, 1, 0, 0, 16, 0, 0, 0, 0, 0, 0, 100])

POWER_ON = (Service.POWER_ON, [0, 0, 0, 0], Status.OK, State.INIT)
OFFICER = (Service.SELECT_ROLE, [1], Status.OK, State.OFFICER)
USER = (Service.SELECT_ROLE, [2], Status.OK, State.USER)
TESTED = (Service.TEST_STEP, b"", Status.OK, State.SELF_TEST)
REQUEST_TESTS = (Service.REQUEST_TESTS, b"", Status.OK, State.SELF_TEST)
RESET = (Service.RESET, b"", Status.OK, State.INIT)
READY = (Service.TEST_STEP, b"", Status.OK, State.APPROVED)
# From Off to Approved, without a period.
UP = [POWER_ON, REQUEST_TESTS, TESTED, TESTED, READY]


def entry(begin, key):
    """The rows of an entry that is done."""
    return [
        (Service.ENTRY_BEGIN, begin, Status.OK, State.ENTRY),
        (Service.ENTRY_BYTES, key, Status.OK, State.ENTRY),
        (Service.ENTRY_COMMIT, check(key, begin), Status.OK, State.OFFICER),
    ]


ENTER_JEFE = JEFE_BEGUN, JEFE_GIVEN, JEFE_DONE = entry(JEFE_BEGIN, JEFE)
ENTER_ONCE = entry(ONCE_BEGIN, JEFE)
ENTER_FOURTEEN, ENTER_LASTING = entry(FOURTEEN_BEGIN, FOURTEEN), entry(LASTING_BEGIN, FOURTEEN)
ENTER_CIPHER = entry(CIPHER_BEGIN, COUNTED)

HASHES = [
    (Service.HASH, b"\x01abc", Status.NOT_IN_STATE, State.APPROVED),
    USER,
    (Service.HASH, b"\x01abc", Status.OK, State.USER, gives(HASH_256_ABC)),
    (Service.HASH, b"\x02abc", Status.OK, State.USER, gives(HASH_384_ABC)),
    (Service.HASH, b"\x03abc", Status.OK, State.USER, gives(HASH_512_ABC)),
    (Service.HASH, b"\x01", Status.OK, State.USER, gives(HASH_256_EMPTY)),
    (Service.HASH, b"\x02", Status.OK, State.USER, gives(HASH_384_EMPTY)),
    (Service.HASH, b"\x03", Status.OK, State.USER, gives(HASH_512_EMPTY)),
    # No algorithm, and numbers of none.
    (Service.HASH, b"", Status.BAD_BODY, State.USER),
    (Service.HASH, b"\x00abc", Status.BAD_BODY, State.USER),
    (Service.HASH, b"\x04abc", Status.BAD_BODY, State.USER),
    (Service.HASH, b"\xffabc", Status.BAD_BODY, State.USER),
    OFFICER,
    (Service.HASH, b"\x01abc", Status.OK, State.OFFICER, gives(HASH_256_ABC)),
    (Service.HASH, b"\x04abc", Status.BAD_BODY, State.OFFICER),
    # A period of 0 counts nothing. Each algorithm passed its test at its first use.
    (Service.SHOW_STATUS, b"", Status.OK, State.OFFICER, shows([0, 0, 0x40, 0x1E, 0, 0, 0, 0, 0, 0, 0, 0])),
]


def digests():
    """Digests of each algorithm, by both roles; bodies without an algorithm, or with the number of none."""
    return Played(ONE_PASS, (1, 65_536)).play(UP, HASHES)


# The digest of `abc` in whole frames, and then ShowStatus: the tests 1, 4 and 14 passed.
WHOLE_COMMANDS = bytes.fromhex("c50110000000000401616263 c501040000000000")
WHOLE_REPLIES = bytes.fromhex(
    "5c0110000501000000000000000000000000000000000020 ba7816bf8f01cfea414140de5dae2223b00361a396177a9cb410ff61f20015ad"
    "5c0104000500000000004012000000000000000000000000"
)


def frames_of_a_digest():
    """A digest stands behind the header of its reply."""
    d = Played(ONE_PASS, (1, 65_536)).play(UP, [USER])
    before, after = len(d.stream), len(d.replies)
    d.ask(Service.HASH, b"\1abc")
    d.show_status()
    assert (d.stream[before:], d.replies[after:]) == (WHOLE_COMMANDS, WHOLE_REPLIES)
    return d


MACS = [
    (Service.SHOW_SLOT, [3], Status.OK, State.OFFICER, JEFE_100),
    USER,
    (Service.MAC, ASK_256, Status.OK, State.USER, gives(MAC_256, 0)),
    (Service.MAC_VERIFY, VERIFY_256, Status.OK, State.USER),
    (Service.MAC_VERIFY, VERIFY_256_FIRST_4, Status.OK, State.USER),
    (Service.MAC_VERIFY, VERIFY_256_TURNED, Status.AUTH_FAILED, State.USER),
    (Service.MAC_VERIFY, VERIFY_256_OTHER, Status.AUTH_FAILED, State.USER),
    (Service.SHOW_SLOT, [3], Status.OK, State.USER, JEFE_95),
    (Service.MAC, ASK_384, Status.OK, State.USER, gives(MAC_384, 0)),
    (Service.MAC_VERIFY, VERIFY_384, Status.OK, State.USER),
    (Service.MAC_VERIFY, VERIFY_384_TURNED, Status.AUTH_FAILED, State.USER),
    (Service.MAC, ASK_512, Status.OK, State.USER, gives(MAC_512, 0)),
    (Service.MAC_VERIFY, VERIFY_512, Status.OK, State.USER),
    (Service.MAC_VERIFY, VERIFY_512_TURNED, Status.AUTH_FAILED, State.USER),
    (Service.MAC, ASK_BYTE, Status.OK, State.USER, gives([0x5B], 0)),
    (Service.SHOW_SLOT, [3], Status.OK, State.USER, JEFE_88),
    OFFICER,
    (Service.MAC, ASK_256, Status.NOT_IN_STATE, State.OFFICER),
    (Service.MAC_VERIFY, VERIFY_256, Status.NOT_IN_STATE, State.OFFICER),
    (Service.SHOW_SLOT, [3], Status.OK, State.OFFICER, JEFE_88),
]
# A key of four bytes is too short for the domain Approved.
REFUSED_KEY = [OFFICER, (Service.ENTRY_BEGIN, header(3, Kind.MAC, APPROVED, 0, 100, 4), Status.BAD_BODY, State.OFFICER)]


def macs():
    """MACs of each algorithm, whole and cut, and their checks; a check that fails spends a use too."""
    return Played(ONE_PASS, (1, 65_536)).play(UP, REFUSED_KEY, ENTER_JEFE, MACS)


# Bodies of Mac and MacVerify that are cut, of another slot, algorithm or length, or without the whole MAC.
BROKEN = [
    USER,
    (Service.MAC, b"", Status.BAD_BODY, State.USER),
    (Service.MAC, [3, 1], Status.BAD_BODY, State.USER),
    (Service.MAC, [16, 1, 32], Status.BAD_BODY, State.USER),
    (Service.MAC, [3, 0, 32], Status.BAD_BODY, State.USER),
    (Service.MAC, [3, 4, 32], Status.BAD_BODY, State.USER),
    (Service.MAC, [3, 1, 0], Status.BAD_BODY, State.USER),
    (Service.MAC, [3, 1, 33], Status.BAD_BODY, State.USER),
    (Service.MAC, [3, 2, 49], Status.BAD_BODY, State.USER),
    (Service.MAC, [3, 3, 65], Status.BAD_BODY, State.USER),
    (Service.MAC_VERIFY, b"", Status.BAD_BODY, State.USER),
    (Service.MAC_VERIFY, [3, 1], Status.BAD_BODY, State.USER),
    (Service.MAC_VERIFY, [16, 1, 1, 0x5B], Status.BAD_BODY, State.USER),
    (Service.MAC_VERIFY, [3, 0, 1, 0x5B], Status.BAD_BODY, State.USER),
    (Service.MAC_VERIFY, [3, 4, 1, 0x5B], Status.BAD_BODY, State.USER),
    (Service.MAC_VERIFY, [3, 1, 0, 0x5B], Status.BAD_BODY, State.USER),
    (Service.MAC_VERIFY, [3, 1, 33, 0x5B], Status.BAD_BODY, State.USER),
    (Service.MAC_VERIFY, [3, 1, 1], Status.BAD_BODY, State.USER),
    (Service.MAC_VERIFY, [3, 1, 4, 0x5B, 0xDC, 0xC1], Status.BAD_BODY, State.USER),
    (Service.MAC_VERIFY, [3, 1, 4, 0x5B, 0xDC, 0xC1, 0x46], Status.AUTH_FAILED, State.USER),
    (Service.SHOW_SLOT, [3], Status.OK, State.USER, JEFE_99),
]


def broken_macs():
    """A body that is of no form spends no use."""
    return Played(ONE_PASS, (11,)).play(UP, [OFFICER], ENTER_JEFE, BROKEN)


ONCE_USED = [
    USER,
    (Service.SHOW_SLOT, [3], Status.OK, State.USER, JEFE_1),
    (Service.MAC, ASK_256, Status.OK, State.USER, gives(MAC_256, 0)),
    (Service.MAC, ASK_256, Status.SPENT, State.USER),
    (Service.MAC_VERIFY, VERIFY_256, Status.SPENT, State.USER),
    (Service.SHOW_SLOT, [3], Status.OK, State.USER, JEFE_0),
]
# A check that fails spends the one use too.
ONCE_CHECKED = [
    USER,
    (Service.MAC_VERIFY, VERIFY_256_TURNED, Status.AUTH_FAILED, State.USER),
    (Service.MAC_VERIFY, VERIFY_256, Status.SPENT, State.USER),
    (Service.SHOW_SLOT, [3], Status.OK, State.USER, JEFE_0),
]
# A check that fails spends the one 
EMPTIED = [OFFICER, (Service.ZEROISE, [3], Status.OK, State.OFFICER)]


def last_uses():
    """A key with one use, spent by a MAC and by a check that fails."""
    return Played(ONE_PASS, (7,)).play(UP, [OFFICER], ENTER_ONCE, ONCE_USED, EMPTIED, ENTER_ONCE, ONCE_CHECKED)


# With a key of the domain Approved, a MAC has at least four bytes.
KEPT_TO_APPROVED = [
    USER,
    (Service.MAC, [3, 1, 3], Status.WRONG_DOMAIN, State.USER),
    (Service.MAC_VERIFY, [3, 1, 3, 0, 0, 0], Status.WRONG_DOMAIN, State.USER),
    (Service.SHOW_SLOT, [3], Status.OK, State.USER, FOURTEEN_1),
    (Service.MAC, [3, 1, 4], Status.OK, State.USER, gives(MAC_FOURTEEN_4)),
    (Service.MAC, [3, 1, 3], Status.WRONG_DOMAIN, State.USER),
    (Service.MAC, [3, 1, 4], Status.SPENT, State.USER),
    (Service.MAC_VERIFY, [3, 1, 3, 0, 0, 0], Status.WRONG_DOMAIN, State.USER),
    (Service.MAC_VERIFY, [3, 1, 4, 0, 0, 0, 0], Status.SPENT, State.USER),
    (Service.SHOW_SLOT, [3], Status.OK, State.USER, FOURTEEN_0),
    (Service.MAC_VERIFY, VERIFY_LASTING_4, Status.OK, State.USER, gives(b"")),
    (Service.MAC_VERIFY, VERIFY_LASTING_4_TURNED, Status.AUTH_FAILED, State.USER),
    (Service.SHOW_SLOT, [4], Status.OK, State.USER, LASTING_98),
]


def approved_macs():
    """A key of the domain Approved is kept to approved uses."""
    return Played(ONE_PASS, (7,)).play(UP, [OFFICER], ENTER_FOURTEEN, ENTER_LASTING, KEPT_TO_APPROVED)


# Commits to an empty slot that are refused, and leave it empty.
NOT_COMMITTED = [
    JEFE_BEGUN,
    JEFE_GIVEN,
    (Service.ENTRY_COMMIT, JEFE_TURNED, Status.CHECK_FAILED, State.OFFICER),
    (Service.SHOW_SLOT, [3], Status.OK, State.OFFICER),
    # What was entered is gone.
    (Service.ENTRY_COMMIT, JEFE_CHECK, Status.NOT_IN_STATE, State.OFFICER),
    JEFE_BEGUN,
    (Service.ENTRY_COMMIT, JEFE_CHECK, Status.BAD_LENGTH, State.OFFICER),
    # The check value is for uses, too.
    JEFE_BEGUN,
    JEFE_GIVEN,
    (Service.ENTRY_COMMIT, ONCE_CHECK, Status.CHECK_FAILED, State.OFFICER),
    JEFE_BEGUN,
    (Service.ENTRY_BYTES, b"Jef", Status.OK, State.ENTRY),
    (Service.ENTRY_COMMIT, JEFE_CHECK, Status.BAD_LENGTH, State.OFFICER),
    (Service.SHOW_SLOT, [3], Status.OK, State.OFFICER),
]
# Commits after a piece that is too much, and after bodies that haven't eight bytes.
COMMITTED = [
    JEFE_BEGUN,
    JEFE_GIVEN,
    (Service.ENTRY_BYTES, [0], Status.BAD_LENGTH, State.ENTRY),
    JEFE_DONE,
    (Service.SHOW_SLOT, [3], Status.OK, State.OFFICER, JEFE_100),
    (Service.ZEROISE, [3], Status.OK, State.OFFICER),
    JEFE_BEGUN,
    (Service.ENTRY_BYTES, b"J", Status.OK, State.ENTRY),
    (Service.ENTRY_BYTES, b"efe", Status.OK, State.ENTRY),
    (Service.ENTRY_COMMIT, [0x5F, 0x8F, 0xA0, 0xDA, 0x15, 0x50, 0xA5], Status.BAD_BODY, State.ENTRY),
    (Service.ENTRY_COMMIT, [0x5F, 0x8F, 0xA0, 0xDA, 0x15, 0x50, 0xA5, 0xAC, 0], Status.BAD_BODY, State.ENTRY),
    (Service.ENTRY_COMMIT, b"", Status.BAD_BODY, State.ENTRY),
    JEFE_DONE,
    (Service.SHOW_SLOT, [3], Status.OK, State.OFFICER, JEFE_100),
]
# Commits to a full slot, which stays as it was.
OCCUPIED = [
    JEFE_BEGUN,
    JEFE_GIVEN,
    (Service.ENTRY_COMMIT, JEFE_CHECK, Status.OCCUPIED_SLOT, State.OFFICER),
    JEFE_BEGUN,
    JEFE_GIVEN,
    (Service.ENTRY_COMMIT, JEFE_TURNED, Status.OCCUPIED_SLOT, State.OFFICER),
    # The length comes before the slot.
    JEFE_BEGUN,
    (Service.ENTRY_BYTES, b"Jef", Status.OK, State.ENTRY),
    (Service.ENTRY_COMMIT, JEFE_CHECK, Status.BAD_LENGTH, State.OFFICER),
    (Service.ENTRY_COMMIT, JEFE_CHECK, Status.NOT_IN_STATE, State.OFFICER),
    (Service.SHOW_SLOT, [3], Status.OK, State.OFFICER, JEFE_100),
]


def commits():
    """Entries that are right, and in which way others are refused."""
    return Played(ONE_PASS, (1,)).play(UP, [OFFICER], NOT_COMMITTED, COMMITTED, OCCUPIED)


# ShowStatus's block: where tests return to, how many were done, those that passed, the period, and the count. Those that pass on
# the way are numbers 4 and 14, HMAC-SHA-256 and the generator, and number 1 is that of SHA-256.
COUNT_0 = shows([0, 0, 0x40, 0x10, 0, 0, 0, 3, 0, 0, 0, 0])
COUNT_1 = shows([0, 0, 0x40, 0x10, 0, 0, 0, 3, 0, 0, 0, 1])
COUNT_1_HASHED = shows([0, 0, 0x40, 0x12, 0, 0, 0, 3, 0, 0, 0, 1])
COUNT_2 = shows([0, 0, 0x40, 0x10, 0, 0, 0, 3, 0, 0, 0, 2])
COUNT_2_HASHED = shows([0, 0, 0x40, 0x12, 0, 0, 0, 3, 0, 0, 0, 2])
TO_USER = shows([5, 0, 0, 0, 0, 0, 0, 3, 0, 0, 0, 0])
TO_USER_AFTER_2 = shows([5, 2, 0, 0x10, 0, 0, 0, 3, 0, 0, 0, 0])
TO_OFFICER = shows([4, 0, 0, 0, 0, 0, 0, 3, 0, 0, 0, 0])
UNTESTED = shows([0, 0, 0, 0, 0, 0, 0, 3, 0, 0, 0, 0])
# From Off to Approved, with period 3.
UP_3 = [(Service.POWER_ON, [0, 0, 0, 3], Status.OK, State.INIT), REQUEST_TESTS, TESTED, TESTED, READY]
HASH_ABC = (Service.HASH, b"\x01abc", Status.OK, State.USER, gives(HASH_256_ABC))
PERIOD = [
    USER,
    HASH_ABC,
    HASH_ABC,
    (Service.SHOW_STATUS, b"", Status.OK, State.USER, COUNT_2_HASHED),
    # The third reply still has its data.
    (Service.HASH, b"\x01abc", Status.OK, State.SELF_TEST, gives(HASH_256_ABC)),
    (Service.HASH, b"\x01abc", Status.NOT_IN_STATE, State.SELF_TEST),
    (Service.MAC, ASK_256, Status.NOT_IN_STATE, State.SELF_TEST),
    (Service.SHOW_STATUS, b"", Status.OK, State.SELF_TEST, TO_USER),
    TESTED,
    TESTED,
    (Service.SHOW_STATUS, b"", Status.OK, State.SELF_TEST, TO_USER_AFTER_2),
    (Service.TEST_STEP, b"", Status.OK, State.USER),
    (Service.SHOW_STATUS, b"", Status.OK, State.USER, COUNT_0),
    (Service.SHOW_SLOT, [3], Status.OK, State.USER, JEFE_100),
]
# Each cryptographic service counts that had its state and its form, whatever its status.
EACH_COUNTS = [
    (Service.HASH, b"", Status.BAD_BODY, State.USER),
    (Service.MAC, [3, 1, 0], Status.BAD_BODY, State.USER),
    (Service.MAC_VERIFY, [3, 1, 1], Status.BAD_BODY, State.USER),
    (Service.SHOW_SLOT, [4], Status.OK, State.USER),
    (Service.SHOW_STATUS, b"", Status.OK, State.USER, COUNT_0),
    (Service.MAC, [4, 1, 4], Status.EMPTY_SLOT, State.USER),
    (Service.SHOW_STATUS, b"", Status.OK, State.USER, COUNT_1),
    (Service.MAC, ASK_256, Status.OK, State.USER, gives(MAC_256, 0)),
    (Service.SHOW_STATUS, b"", Status.OK, State.USER, COUNT_2),
    (Service.MAC_VERIFY, VERIFY_256_TURNED, Status.AUTH_FAILED, State.SELF_TEST),
    TESTED,
    TESTED,
    (Service.TEST_STEP, b"", Status.OK, State.USER),
    (Service.SHOW_SLOT, [3], Status.OK, State.USER, JEFE_98),
    (Service.MAC_VERIFY, [4, 1, 1, 0], Status.EMPTY_SLOT, State.USER),
    (Service.MAC_VERIFY, VERIFY_256, Status.OK, State.USER),
    (Service.SHOW_STATUS, b"", Status.OK, State.USER, COUNT_2),
]
# A change of role keeps the count, tests come back to the officer, and asking for tests or Reset begins a period.
COUNTS_END = [
    OFFICER,
    (Service.HASH, b"\x01abc", Status.OK, State.SELF_TEST, gives(HASH_256_ABC)),
    (Service.SHOW_STATUS, b"", Status.OK, State.SELF_TEST, TO_OFFICER),
    TESTED,
    TESTED,
    (Service.TEST_STEP, b"", Status.OK, State.OFFICER),
    (Service.HASH, b"\x01abc", Status.OK, State.OFFICER, gives(HASH_256_ABC)),
    (Service.SHOW_STATUS, b"", Status.OK, State.OFFICER, COUNT_1_HASHED),
    REQUEST_TESTS,
    TESTED,
    TESTED,
    (Service.TEST_STEP, b"", Status.OK, State.OFFICER),
    (Service.SHOW_STATUS, b"", Status.OK, State.OFFICER, COUNT_0),
    (Service.HASH, b"\x01abc", Status.OK, State.OFFICER, gives(HASH_256_ABC)),
    (Service.SHOW_STATUS, b"", Status.OK, State.OFFICER, COUNT_1_HASHED),
    (Service.RESET, b"", Status.OK, State.INIT),
    (Service.SHOW_STATUS, b"", Status.OK, State.INIT, UNTESTED),
]


def a_period():
    """Tests after a period of 3: what counts, where tests lead back to, and what begins a period."""
    return Played(FIVE_PASSES, (1,)).play(UP_3, [OFFICER], ENTER_JEFE, PERIOD, EACH_COUNTS, COUNTS_END)


# Slots 3, 4 and 5 are full. A slot of another kind is no MAC key, and one that is emptied is none either.
ONE_EMPTIED = [
    (Service.MAC, ASK_256, Status.NOT_IN_STATE, State.OFFICER),
    USER,
    (Service.MAC, [5, 1, 32], Status.WRONG_KIND, State.USER),
    (Service.MAC_VERIFY, [5, 1, 1, 0], Status.WRONG_KIND, State.USER),
    (Service.MAC, [0, 1, 32], Status.EMPTY_SLOT, State.USER),
    (Service.MAC, ASK_256, Status.OK, State.USER, gives(MAC_256, 0)),
    (Service.SHOW_SLOT, [5], Status.OK, State.USER, CIPHER_100),
    OFFICER,
    (Service.ZEROISE, [3], Status.OK, State.OFFICER),
    USER,
    (Service.MAC, ASK_256, Status.EMPTY_SLOT, State.USER),
    (Service.SHOW_SLOT, [4], Status.OK, State.USER, LASTING_100),
]
ALL_EMPTIED = [
    OFFICER,
    (Service.ZEROISE_ALL, b"", Status.OK, State.OFFICER),
    USER,
    (Service.MAC, ASK_256, Status.EMPTY_SLOT, State.USER),
    (Service.MAC_VERIFY, VERIFY_256, Status.EMPTY_SLOT, State.USER),
]
ALL_SHOWN = [
    (Service.SHOW_SLOT, [3], Status.OK, State.USER),
    (Service.SHOW_SLOT, [4], Status.OK, State.USER),
    (Service.SHOW_SLOT, [5], Status.OK, State.USER),
    (Service.MAC, [4, 1, 32], Status.EMPTY_SLOT, State.USER),
    (Service.MAC, [5, 1, 32], Status.EMPTY_SLOT, State.USER),
]


def emptied_slots():
    """Slots emptied one by one and all at once."""
    return Played(ONE_PASS, (7,)).play(UP, [OFFICER], ENTER_JEFE, ENTER_LASTING, ENTER_CIPHER, ONE_EMPTIED, ALL_EMPTIED, ALL_SHOWN)


# From Init to the user's role, and each slot is empty.
AFTER_RESET = [
    REQUEST_TESTS,
    TESTED,
    TESTED,
    (Service.TEST_STEP, b"", Status.OK, State.APPROVED),
    USER,
    *((Service.SHOW_SLOT, [slot], Status.OK, State.USER) for slot in range(16)),
    (Service.MAC, ASK_256, Status.EMPTY_SLOT, State.USER),
]
FILL = [OFFICER, *ENTER_JEFE, *ENTER_LASTING, *ENTER_CIPHER]


def resets():
    """Nothing is kept through a Reset from Officer, from Entry and from SelfTest."""
    d = Played(FOUR_PASSES, (7,)).play(UP)
    for before in ([], [JEFE_BEGUN], [REQUEST_TESTS]):
        d.play(FILL, before, [RESET], AFTER_RESET)
    return d


# Numbered commands with commands of version 1 between them: each, and its reply.
NUMBERED = [
    # ShowStatus with the number that is expected first.
    ("c50204000000000000000001", "5c020400000000000000000000000000000000000000000000000001"),
    # The same again: one too small.
    ("c50204000000000000000001", "5c020410000000000000000200000000000000000000000000000001"),
    # One too large, and 0.
    ("c50204000000000000000003", "5c020410000000000000000200000000000000000000000000000003"),
    ("c50204000000000000000000", "5c020410000000000000000200000000000000000000000000000000"),
    # Version 1 between them.
    ("c501040000000000", "5c0104000000000000000000000000000000000000000000"),
    # Out of order before an unknown service, a service that isn't permitted and a bad body.
    ("c5027e000000000000000003", "5c027e10000000000000000200000000000000000000000000000003"),
    ("c50207000000000000000003", "5c020710000000000000000200000000000000000000000000000003"),
    ("c50204000000000100000003ff", "5c020410000000000000000200000000000000000000000000000003"),
    # In order these are refused for their own reasons, and their numbers are taken.
    ("c5027e000000000000000002", "5c027e01000000000000000000000000000000000000000000000002"),
    ("c50207000000000000000003", "5c020702000000000000000000000000000000000000000000000003"),
    ("c50204000000000100000004ff", "5c020403000000000000000000000000000000000000000000000004"),
    # PowerOn, version 1 and version 2 by turns.
    ("c5020100000000040000000500000003", "5c020100010000000000000000000000000000000000000000000005"),
    ("c501040000000000", "5c0104000100000000000000000000030000000000000000"),
    ("c50204000000000000000006", "5c020400010000000000000000000003000000000000000000000006"),
    # Reset leaves the expected number, and so does one of version 1.
    ("c50207000000000000000007", "5c020700010000000000000000000000000000000000000000000007"),
    ("c501070000000000", "5c0107000100000000000000000000000000000000000000"),
    ("c50204000000000000000001", "5c020410010000000000000800000000000000000000000000000001"),
    ("c50204000000000000000008", "5c020400010000000000000000000003000000000000000000000008"),
]


def numbered_by_turns():
    """Numbered commands are answered in their order, with commands of version 1 between them."""
    d = Played(NO_PASS, (1, 7, 65_536))
    for command, wanted in NUMBERED:
        command = bytes.fromhex(command)
        content, sequence = (command[12:], int.from_bytes(command[8:12], "big")) if command[1] == 2 else (command[8:], None)
        assert frame(command[2], content, sequence) == command
        if d.ask(command[2], content, None, sequence).spelling().hex() != wanted:
            raise Surprise(f"{command.hex()} isn't answered {wanted}")
    return d


DIALOGUES = {
    "digests": digests,
    "frames_of_a_digest": frames_of_a_digest,
    "macs": macs,
    "broken_macs": broken_macs,
    "last_uses": last_uses,
    "approved_macs": approved_macs,
    "commits": commits,
    "a_period": a_period,
    "emptied_slots": emptied_slots,
    "resets": resets,
    "numbered_by_turns": numbered_by_turns,
}

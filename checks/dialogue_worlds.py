"""Dialogues in two worlds: the bytes entered into some slots differ, the check values of these entries with them, and nothing else.

What differs then is *tainted*: the bytes of an entry, the slot that they are committed to, and each slot that is made from a tainted one
by Derive, Unwrap or UnwrapPad. It stays so until the slot is emptied. A command *observes* it where it commits a tainted entry, commits
to a tainted slot, or shows or names a tainted slot. Where a command observes nothing tainted its replies are to be equal in both worlds,
and else of the same service, state and error code. `Worlds` keeps account of what is tainted, and compares the replies to each command.
"""
import hashlib
import hmac
from dataclasses import dataclass, field

import machine_functions as functions
from dialogue_bodies import NOISE, PASS, STEP, Dialogue, Surprise, counted, derive, header, mac, random, seal, turned, unwrapping
from machine_bodies import APPROVED, OTHER, BadBody, Kind, Service, Status, is_cryptographic, permits, read_request

# The bytes that are entered in the first world, and in the other.
KEYS = counted(32), counted(32)[::-1]
MAKERS = (Service.DERIVE, Service.UNWRAP, Service.UNWRAP_PAD)
NAMES = ("slot", "kek", "second", "source", "target")


@dataclass
class Tainted:
    """Whether the bytes being entered are tainted, and which slots are."""

    entry: bool = False
    slots: set = field(default_factory=set)


def request_of(machine, service, body):
    """What a command asks of a machine; None where its state doesn't permit that, or the body isn't of its form."""
    try:
        return read_request(service, body) if permits(machine.state, service) else None
    except BadBody:
        return None


def observes(machine, tainted, service, request):
    """Whether a request looks at what is tainted."""
    if request is None:
        return False
    if service == Service.ENTRY_COMMIT:
        return tainted.entry or machine.entry.header.target in tainted.slots
    if service == Service.SHOW_SLOT or is_cryptographic(service):
        return any(getattr(request, name, None) in tainted.slots for name in NAMES)
    return False


def taint_entered(machine, tainted, service, request, differ):
    """What the commands of an entry leave tainted."""
    entry, slots = machine.entry, tainted.slots
    if service == Service.ENTRY_BYTES:
        fits = len(entry.key) + len(request.piece) <= entry.header.length
        return Tainted(tainted.entry or (fits and differ), slots)
    target, whole = entry.header.target, len(entry.key) == entry.header.length
    if service == Service.ENTRY_COMMIT and tainted.entry and whole and machine.slots[target] is None:
        return Tainted(False, slots | {target})
    return Tainted(False, slots)


def emptied(machine, service, request):
    """The slots that a request empties."""
    if service in (Service.RESET, Service.ZEROISE_ALL):
        return set(range(16))
    if service == Service.ZEROISE:
        return {request.slot}
    if service == Service.ZEROISE_TREE:
        return {number for number in range(16) if number == request.slot or request.slot in machine.rows[number]}
    return set()


def taint_after(machine, tainted, service, request, differ):
    """What is tainted after a command; `differ` says whether its body is another in the other world."""
    if request is None:
        return tainted
    if service in (Service.ENTRY_BYTES, Service.ENTRY_COMMIT, Service.ENTRY_ABORT):
        return taint_entered(machine, tainted, service, request, differ)
    if service in MAKERS:
        source = request.source if service == Service.DERIVE else request.kek
        made = {request.target} if source in tainted.slots and machine.slots[request.target] is None else set()
        return Tainted(tainted.entry, tainted.slots | made)
    return Tainted(tainted.entry and service != Service.RESET, tainted.slots - emptied(machine, service, request))


def may_differ(tainted, service, body, other_body):
    """Whether two worlds may send these bodies: pieces of one length, and checks of entries that are tainted."""
    if service == Service.ENTRY_BYTES:
        return len(body) == len(other_body)
    return service == Service.ENTRY_COMMIT and tainted.entry and len(body) == len(other_body) == 8


class Worlds(Dialogue):
    """The dialogue of the first world, and beside it that of the other."""

    def __init__(self, samples=len(NOISE), steps=(STEP,), other_steps=(STEP,)):
        super().__init__(samples, steps)
        self.other, self.tainted = Dialogue(samples, other_steps), Tainted()

    def ask_both(self, service, body, statuses, other_body):
        """Asks in both worlds. The replies, and whether the command observes what is tainted."""
        if body != other_body and not may_differ(self.tainted, service, body, other_body):
            raise Surprise(f"{service!r}: the worlds send other bodies")
        request = request_of(self.machine, service, body)
        observed = observes(self.machine, self.tainted, service, request)
        after = taint_after(self.machine, self.tainted, service, request, body != other_body)
        reply = super().ask(service, body, statuses[0])
        other = self.other.ask(service, other_body, statuses[1])
        if (reply.service, reply.state, reply.code) != (other.service, other.state, other.code):
            raise Surprise(f"{service!r}: the worlds are in other states")
        if reply != other and not observed:
            raise Surprise(f"{service!r} observes nothing tainted, and its replies differ")
        if reply.status in (Status.TEST_FAILED, Status.NOISE_FAULT):
            raise Surprise(f"{service!r}: a test or the noise failed")
        self.tainted = after
        return reply, other, observed

    def ask(self, service, body=b"", status=Status.OK, *, other_body=None):
        """A command whose replies have this status in both worlds."""
        return self.ask_both(service, body, (status, status), body if other_body is None else other_body)[0]

    def differ(self, service, body, statuses=(Status.OK, Status.OK), *, other_body=None):
        """A command that observes what is tainted, and whose replies differ."""
        reply, other, observed = self.ask_both(service, body, statuses, body if other_body is None else other_body)
        if not observed or reply == other:
            raise Surprise(f"{service!r}: the replies are equal")

    def alike(self, service, body=b"", status=Status.OK):
        """A command whose replies are equal, whatever it observes."""
        reply, other, _ = self.ask_both(service, body, (status, status), body)
        if reply != other:
            raise Surprise(f"{service!r}: the replies differ")
        return reply

    def begin(self, slot, kind, keys, domain=OTHER, uses=100):
        """Begins an entry with these bytes in the two worlds; answers its check values."""
        head = header(slot, kind, domain, 0, uses, len(keys[0]))
        self.officer()
        self.ask(Service.ENTRY_BEGIN, head)
        self.ask(Service.ENTRY_BYTES, keys[0], other_body=keys[1])
        return [hmac.new(key, head, hashlib.sha256).digest()[:8] for key in keys]

    def enter_both(self, slot, kind, keys=KEYS, domain=OTHER, uses=100):
        """Enters other bytes in the two worlds."""
        checks = self.begin(slot, kind, keys, domain, uses)
        self.ask(Service.ENTRY_COMMIT, checks[0], other_body=checks[1])

    def untainted(self):
        """From here on each reply is to be equal, until other bytes are entered again."""
        if self.tainted != Tainted():
            raise Surprise(f"{self.tainted} is tainted yet")
        self.show_status()


def macs():
    """A MAC key and a derivation key: what is made of them differs until both and the derived key are made zero."""
    w = Worlds()
    w.start()
    w.enter_both(3, Kind.MAC)
    w.enter_both(4, Kind.KDF)
    w.enter(1, Kind.AES)
    w.user()
    w.differ(Service.MAC, mac(3))
    w.alike(Service.DERIVE, derive(4, 5, Kind.MAC, uses=10))
    w.differ(Service.MAC, mac(5))
    w.zeroise(3, 4, 5)
    w.untainted()
    w.alike(Service.RANDOM, random(32))
    w.user()
    w.alike(Service.SEAL, seal(1, b"text"))
    w.alike(Service.MAC, mac(3), Status.EMPTY_SLOT)
    w.alike(Service.MAC, mac(5), Status.EMPTY_SLOT)
    w.show_all()
    return w


def tree():
    """A derivation key, and two that are made from it in turn: ZeroiseTree of the first ends what they tell."""
    w = Worlds()
    w.start()
    w.enter_both(3, Kind.KDF, domain=APPROVED, uses=20)
    w.enter(6, Kind.KDF)
    w.alike(Service.DERIVE, derive(3, 4, Kind.KDF, uses=9))
    w.alike(Service.DERIVE, derive(4, 5, Kind.MAC, uses=9))
    w.user()
    w.differ(Service.MAC, mac(5))
    w.officer()
    w.ask(Service.ZEROISE_TREE, b"\3")
    w.untainted()
    w.alike(Service.SHOW_SLOT, b"\5")
    w.alike(Service.RANDOM, random(32))
    w.alike(Service.DERIVE, derive(6, 7, Kind.MAC, uses=9))
    w.user()
    w.alike(Service.MAC, mac(7))
    w.alike(Service.MAC, mac(5), Status.EMPTY_SLOT)
    return w


def wrapping():
    """A wrapping opens in one world alone, and its target's next use tells so; ZeroiseTree of either source empties the target."""
    w = Worlds()
    w.start()
    w.enter_both(3, Kind.KEK)
    w.enter(7, Kind.KDF)
    w.enter(8, Kind.KDF)
    wrapped = functions.wrap(False, KEYS[0], counted(32))
    w.differ(Service.UNWRAP, unwrapping(3, 5, Kind.KDF, wrapped, 0, 9), (Status.OK, Status.UNWRAP_FAILED))
    w.differ(Service.DERIVE, derive(7, 5, Kind.KDF, uses=9), (Status.OCCUPIED_SLOT, Status.OK))
    w.ask(Service.ZEROISE_TREE, b"\7")
    assert w.alike(Service.SHOW_SLOT, b"\5").block == b""
    w.alike(Service.DERIVE, derive(8, 5, Kind.KDF, uses=9))
    w.ask(Service.ZEROISE_TREE, b"\3")
    w.untainted()
    assert w.alike(Service.SHOW_SLOT, b"\5").block[0] == 1
    w.alike(Service.DERIVE, derive(5, 4, Kind.MAC))
    w.user()
    w.alike(Service.MAC, mac(4))
    return w


def failing_unwrap():
    """A wrapping opens in one world alone; once both slots are made zero they and the generator are as in the other."""
    w = Worlds()
    w.start()
    w.enter_both(0, Kind.KEK)
    wrapped = functions.wrap(False, KEYS[0], counted(32))
    w.differ(Service.UNWRAP, unwrapping(0, 6, Kind.MAC, wrapped, 0, 9), (Status.OK, Status.UNWRAP_FAILED))
    w.alike(Service.SHOW_SLOT, b"\0")
    w.differ(Service.SHOW_SLOT, b"\6")
    w.zeroise(0, 6)
    w.untainted()
    for slot in (0, 6):
        assert w.alike(Service.SHOW_SLOT, bytes([slot])).block == b""
    w.alike(Service.RANDOM, random(32))
    return w


def checks():
    """A check value that is right in one world alone: the slot is full there, and empty in the other, until it is made zero."""
    w = Worlds()
    w.start()
    w.enter(4, Kind.KDF)
    right, wrong = w.begin(3, Kind.MAC, KEYS)
    w.differ(Service.ENTRY_COMMIT, right, (Status.OK, Status.CHECK_FAILED), other_body=turned(wrong))
    w.differ(Service.SHOW_SLOT, b"\3")
    w.differ(Service.DERIVE, derive(4, 3, Kind.KDF, uses=9), (Status.OCCUPIED_SLOT, Status.OK))
    w.differ(Service.SHOW_SLOT, b"\3")
    w.ask(Service.ZEROISE, b"\3")
    w.untainted()
    w.alike(Service.SHOW_SLOT, b"\4")
    w.alike(Service.DERIVE, derive(4, 3, Kind.MAC))
    w.user()
    w.alike(Service.MAC, mac(3))
    w.alike(Service.RANDOM, random(32))
    return w


def entries():
    """Entries of other bytes that fill no slot: aborted, too short, into a full slot, and gone by a Reset with all slots."""
    w = Worlds()
    w.start()
    w.enter(4, Kind.MAC)
    w.begin(3, Kind.MAC, KEYS)
    w.ask(Service.ENTRY_BYTES, b"a", Status.BAD_LENGTH, other_body=b"b")
    w.ask(Service.ENTRY_ABORT)
    w.untainted()
    w.begin(4, Kind.MAC, KEYS)
    w.alike(Service.ENTRY_COMMIT, bytes(8), Status.OCCUPIED_SLOT)
    w.untainted()
    w.ask(Service.ENTRY_BEGIN, header(3, Kind.MAC))
    w.ask(Service.ENTRY_BYTES, b"a", other_body=b"b")
    w.alike(Service.ENTRY_COMMIT, bytes(8), Status.BAD_LENGTH)
    w.untainted()
    w.alike(Service.RANDOM, random(32))
    w.enter_both(3, Kind.AES)
    w.user()
    w.differ(Service.SEAL, seal(3, b"text"))
    w.alike(Service.MAC, mac(4))
    w.begin(5, Kind.MAC, KEYS)
    w.ask(Service.RESET)
    w.untainted()
    w.ask(Service.REQUEST_TESTS)
    w.tests()
    w.user()
    w.alike(Service.SEAL, seal(3, b"text"), Status.EMPTY_SLOT)
    w.show_all()
    w.alike(Service.RANDOM, random(32))
    return w


def keys_that_go():
    """A MAC key and a derivation key, used and made zero with what was derived. The commands of each world are cut at other places."""
    w = Worlds(PASS, (1,), (65_536,))
    w.start()
    w.enter_both(3, Kind.MAC)
    w.enter_both(4, Kind.KDF)
    w.user()
    w.differ(Service.MAC, mac(3))
    w.alike(Service.DERIVE, derive(4, 5, Kind.MAC, uses=10))
    w.differ(Service.MAC, mac(5))
    w.zeroise(3, 4, 5)
    w.untainted()
    w.alike(Service.RANDOM, random(32))
    w.enter(3, Kind.AES)
    w.user()
    w.alike(Service.SEAL, seal(3, b"text"))
    return w


def another_text():
    """The same in the other world, but for the last text. A text isn't secret: such a stream is of no world, and its last reply tells so."""
    other = keys_that_go().other
    d = Dialogue(PASS, (11,))
    d.end(other.stream[:-1] + b"u")
    sealed = 24 + 12 + len(b"text") + 16
    assert d.replies[:-sealed] == other.replies[:-sealed] and d.replies[-sealed:] != other.replies[-sealed:]
    return d


def check_that_fails():
    """A check value that is right in one world alone, and a slot that is empty in both then."""
    w = Worlds(PASS, (65_536,), (7,))
    w.start()
    right, wrong = w.begin(3, Kind.MAC, KEYS)
    w.differ(Service.ENTRY_COMMIT, right, (Status.OK, Status.CHECK_FAILED), other_body=turned(wrong))
    w.differ(Service.SHOW_SLOT, b"\3")
    w.zeroise(3)
    w.untainted()
    w.alike(Service.SHOW_SLOT, b"\3")
    w.alike(Service.RANDOM, random(32))
    return w


WORLDS = {
    "worlds": macs,
    "worlds_of_a_tree": tree,
    "worlds_of_a_wrapping": wrapping,
    "worlds_of_a_failing_unwrap": failing_unwrap,
    "worlds_of_checks": checks,
    "worlds_of_entries": entries,
    "worlds_of_keys_that_go": keys_that_go,
    "worlds_of_a_failing_check": check_that_fails,
}
DIALOGUES = {
    **{f"{name}_1": worlds for name, worlds in WORLDS.items()},
    **{f"{name}_2": lambda worlds=worlds: worlds().other for name, worlds in WORLDS.items()},
    "another_text": another_text,
}

"""An independent model of the module: what it answers to each command, written from its description and not from its sources.

`Machine.command` gives the reply to a command, and `served` what a whole stream is answered. dialogue.py writes dialogues by it.
"""
from dataclasses import dataclass
from types import SimpleNamespace

import machine_functions as functions
from machine_bodies import (
    APPROVED,
    LARGEST_BODY,
    BadBody,
    Kind,
    Service,
    State,
    Status,
    fits,
    is_cryptographic,
    permits,
    read_request,
)

IMAGE_KEY = bytes(range(32))
STARTUP, ENTROPY, NONCE = 1_024, 256, 128
RESEED_INTERVAL = 1_024
REPETITION, WINDOW, PROPORTION = 31, 512, 325
IV = 12
CHECK = 8
SMALLEST_APPROVED_MAC = 4
IMAGE_DIFFERS, NOISE_ENDED, NOISE_FAILED, REPEATED, OUT_OF_PROPORTION = 0x0200, 0x0300, 0x0400, 0x0500, 0x0600
FAILED_SAMPLE = object()

QUESTION = b"what do ya want for nothing?"
TEST_KEY, TEST_IV, TEST_TEXT = bytes(32), bytes(12), bytes(16)
TEST_CIPHERTEXT = bytes.fromhex("cea7403d4d606b6e074ec5d3baf39d18")
TEST_TAG = bytes.fromhex("d0d1c8a799996bf0265b98b5d48ab919")
TEST_KEK, TEST_PLAIN = bytes(range(16)), bytes.fromhex("00112233445566778899aabbccddeeff")
TEST_WRAPPED = bytes.fromhex("1fa68b0a8112b447aef34bd8fb5a7b829d3e862371d2cfe5")
TEST_PAD_KEK = bytes.fromhex("5840df6e29b02af1ab493b705bf16ea1ae8338f4dcc176a8")
TEST_PAD_PLAIN, TEST_PAD_WRAPPED = b"For" b"Pasi", bytes.fromhex("afbeb0f07dfbf5419200f2ccb50bb24f")


class Refused(Exception):
    """Another status than Ok, and what the block then tells."""

    def __init__(self, status, block=b""):
        super().__init__(status)
        self.status, self.block = status, block


class Failed(Exception):
    """A test or the noise failed: the status, and the error code."""

    def __init__(self, status, code):
        super().__init__(status, code)
        self.status, self.code = status, code


def refuse_where(holds, status):
    if holds:
        raise Refused(status)


class Engine:
    """Answers the standards' functions; with a call's number, that call is right `after` times and then turns a bit, or refuses."""

    def __init__(self, faulty=None, after=0, bit=0):
        self.faulty, self.after, self.bit = faulty, after, bit

    def is_wrong(self, call):
        if call != self.faulty:
            return False
        self.after -= 1
        return self.after < 0

    def answered(self, call, out):
        return bytes([out[0] ^ 1 << self.bit]) + out[1:] if self.is_wrong(call) and out else out

    def generator(self, call, generator):
        return generator._replace(k=self.answered(call, generator.k))

    def hash(self, alg, text):
        return self.answered(0, functions.hash_of(alg, text))

    def mac(self, alg, key, text):
        return self.answered(1, functions.hmac(alg, key, text))

    def seal(self, key, iv, aad, text):
        ciphertext, tag = functions.gcm_seal(key, iv, aad, text)
        return ciphertext, self.answered(2, tag)

    def open(self, key, iv, aad, text, tag):
        return None if self.is_wrong(3) else functions.gcm_open(key, iv, aad, text, tag)

    def wrap(self, pad, kek, text):
        return self.answered(4, functions.wrap(pad, kek, text))

    def unwrap(self, pad, kek, wrapped):
        return None if self.is_wrong(5) else functions.unwrap(pad, kek, wrapped)

    def derive(self, key, label, context, count):
        return self.answered(6, functions.derive(key, label, context, count))

    def instantiate(self, entropy, nonce):
        return self.generator(7, functions.instantiate(entropy, nonce, b""))

    def reseed(self, entropy, additional, generator):
        return self.generator(8, functions.reseed(entropy, additional, generator))

    def generate(self, additional, generator, count):
        out, after = functions.generate(additional, generator, count)
        return self.answered(9, out), after


def generator_answer(engine):
    generator = engine.instantiate(bytes(range(0x20)), bytes(range(0x20, 0x30)))
    generator = engine.reseed(bytes(range(0x30, 0x50)), b"", generator)
    return engine.generate(b"", generator, 32)[0]


def both_openings(engine):
    turned = TEST_TAG[:-1] + bytes([TEST_TAG[-1] ^ 1])
    return [engine.open(TEST_KEY, TEST_IV, b"", TEST_CIPHERTEXT, tag) for tag in (TEST_TAG, turned)]


# What an engine answers to each test, by number. It passes where that is what the standards answer.
TESTS = {
    1: lambda engine: engine.hash(1, b"abc"),
    2: lambda engine: engine.hash(2, b"abc"),
    3: lambda engine: engine.hash(3, b"abc"),
    4: lambda engine: engine.mac(1, b"Jefe", QUESTION),
    5: lambda engine: engine.mac(2, b"Jefe", QUESTION),
    6: lambda engine: engine.mac(3, b"Jefe", QUESTION),
    7: lambda engine: engine.seal(TEST_KEY, TEST_IV, b"", TEST_TEXT),
    8: both_openings,
    9: lambda engine: engine.wrap(False, TEST_KEK, TEST_PLAIN),
    10: lambda engine: engine.unwrap(False, TEST_KEK, TEST_WRAPPED),
    11: lambda engine: engine.wrap(True, TEST_PAD_KEK, TEST_PAD_PLAIN),
    12: lambda engine: engine.unwrap(True, TEST_PAD_KEK, TEST_PAD_WRAPPED),
    13: lambda engine: engine.derive(bytes(range(32)), b"label", b"context", 32),
    14: generator_answer,
}

FIRST_TESTS = {
    Service.SEAL: 7,
    Service.SEAL_IV: 7,
    Service.OPEN: 8,
    Service.WRAP: 9,
    Service.UNWRAP: 10,
    Service.WRAP_PAD: 11,
    Service.UNWRAP_PAD: 12,
    Service.DERIVE: 13,
    Service.RANDOM: 14,
    Service.GENERATE: 14,
    Service.RESEED: 14,
}


def test_of(service, request):
    """The test that is due before the first use of what the request asks for."""
    if service == Service.HASH:
        return request.alg
    if service in (Service.MAC, Service.MAC_VERIFY):
        return 3 + request.alg
    return FIRST_TESTS[service]


def is_approved(service, request):
    if service in (Service.MAC, Service.MAC_VERIFY):
        return request.length >= SMALLEST_APPROVED_MAC
    return is_cryptographic(service) and service != Service.SEAL_IV


def signal(samples):
    """The error code of the health test that the last of these samples sets off, or none."""
    if len(samples) >= REPETITION and len(set(samples[-REPETITION:])) == 1:
        return REPEATED
    window = samples[(len(samples) - 1) // WINDOW * WINDOW :]
    return OUT_OF_PROPORTION if window.count(window[0]) >= PROPORTION else None


@dataclass
class Slot:
    kind: Kind
    domain: int
    export: int
    uses: int
    key: bytes

    def block(self):
        return bytes([1, self.kind, self.domain, self.export, len(self.key), 0, 0, 0]) + self.uses.to_bytes(4, "big")


@dataclass
class Reply:
    service: int
    sequence: int
    status: Status
    state: State
    approved: int
    code: int
    block: bytes
    payload: bytes

    def spelling(self):
        version = 1 if self.sequence is None else 2
        number = b"" if self.sequence is None else self.sequence.to_bytes(4, "big")
        head = bytes([0x5C, version, self.service, self.status, self.state, self.approved]) + self.code.to_bytes(2, "big")
        return head + self.block.ljust(12, b"\0") + len(self.payload).to_bytes(4, "big") + number + self.payload


class Machine:
    def __init__(self, image, digest, noise, engine=None):
        self.image, self.digest, self.noise, self.engine = image, digest, list(noise), engine or Engine()
        self.state, self.period, self.next = State.OFF, 0, 1
        self.forget()

    def forget(self):
        """All that a Reset makes zero."""
        self.back = self.step = self.count = self.code = 0
        self.tested, self.samples, self.generator, self.entry = set(), [], None, None
        self.empty_all()

    def empty_all(self):
        self.slots, self.rows = [None] * 16, [set() for _ in range(16)]

    def command(self, number, content, sequence=None):
        """The reply to one command: each of the steps that may refuse it, in their order."""
        status, approved, block, payload = Status.OK, 0, b"", b""
        try:
            self.take_number(sequence)
            service = self.permitted(number)
            request = self.read(service, content)
            if is_cryptographic(service):
                payload = self.cryptographic(service, request)
                approved = self.indicator(service, request)
            else:
                block = MANAGEMENT[service](self, request) or b""
        except Refused as refusal:
            status, block = refusal.status, refusal.block
        except Failed as failure:
            status, self.code, self.state, self.back, self.step = failure.status, failure.code, State.ERROR, 0, 0
        if self.period and self.count == self.period and self.state != State.ERROR:
            self.begin_tests(self.state)
        return Reply(number, sequence, status, self.state, approved, self.code, block, payload)

    def take_number(self, sequence):
        if sequence is None:
            return
        if sequence != self.next:
            raise Refused(Status.OUT_OF_ORDER, self.next.to_bytes(4, "big"))
        self.next = (self.next + 1) % 2**32

    def permitted(self, number):
        refuse_where(number not in list(Service), Status.UNKNOWN_SERVICE)
        refuse_where(not permits(self.state, Service(number)), Status.NOT_IN_STATE)
        return Service(number)

    def read(self, service, content):
        try:
            return read_request(service, content)
        except BadBody:
            raise Refused(Status.BAD_BODY) from None

    def cryptographic(self, service, request):
        """The payload of a cryptographic service."""
        if self.period:
            self.count += 1
        self.test(test_of(service, request))
        drawn = self.drawn(service, request)
        if service in (Service.DERIVE, Service.UNWRAP, Service.UNWRAP_PAD):
            self.link(source_of(request), request.target)
        source = self.source(service, request)
        self.look_at_second(service, request, source)
        return ANSWERS[service](self, request, source, drawn)

    def indicator(self, service, request):
        named = [getattr(request, name) for name in ("slot", "kek", "second", "source", "target") if hasattr(request, name)]
        slots = [self.slots[number] for number in named]
        return int(is_approved(service, request) and all(slot and slot.domain == APPROVED for slot in slots))

    # Tests, samples and draws.

    def begin_tests(self, back):
        self.state, self.back, self.step, self.count, self.tested = State.SELF_TEST, back, 0, 0, set()

    def test(self, number):
        """Makes a known-answer test that hasn't passed since the last tests began."""
        if number in self.tested:
            return
        if TESTS[number](self.engine) != TESTS[number](Engine()):
            raise Failed(Status.TEST_FAILED, 0x0100 + number)
        self.tested.add(number)

    def take(self, count):
        """So many samples, each through the health tests."""
        taken = []
        for _ in range(count):
            if not self.noise:
                raise Failed(Status.NOISE_FAULT, NOISE_ENDED)
            sample = self.noise.pop(0)
            if sample is FAILED_SAMPLE:
                raise Failed(Status.NOISE_FAULT, NOISE_FAILED)
            self.samples.append(sample)
            code = signal(self.samples)
            if code:
                raise Failed(Status.NOISE_FAULT, code)
            taken.append(sample)
        return bytes(taken)

    def draw(self, count, additional=b""):
        if self.generator.counter > RESEED_INTERVAL:
            self.generator = self.engine.reseed(self.take(ENTROPY), b"", self.generator)
        drawn, self.generator = self.engine.generate(additional, self.generator, count)
        return drawn

    def drawn(self, service, request):
        if service == Service.SEAL:
            return self.draw(IV)
        if service == Service.GENERATE:
            return self.draw(request.length)
        if service == Service.RANDOM:
            return self.draw(request.length, request.additional)
        if service == Service.RESEED:
            self.generator = self.engine.reseed(self.take(ENTROPY), request.additional, self.generator)
        return b""

    # Slots.

    def link(self, source, target):
        self.rows[target] |= {source} | self.rows[source]

    def source(self, service, request):
        """The slot whose key is used, with one use spent; none for a service that uses no key."""
        if service not in SOURCE_KINDS:
            return None
        slot = self.slots[source_of(request)]
        refuse_where(slot is None, Status.EMPTY_SLOT)
        refuse_where(slot.kind != SOURCE_KINDS[service], Status.WRONG_KIND)
        refuse_where(slot.domain == APPROVED and not is_approved(service, request), Status.WRONG_DOMAIN)
        refuse_where(slot.uses == 0, Status.SPENT)
        slot.uses -= 1
        return slot

    def look_at_second(self, service, request, kek):
        if service in (Service.WRAP, Service.WRAP_PAD):
            second = self.slots[request.second]
            refuse_where(second is None, Status.EMPTY_SLOT)
            refuse_where(not second.export, Status.NOT_EXPORTABLE)
            refuse_where(second.domain != kek.domain, Status.WRONG_DOMAIN)
            length = len(second.key)
            refuse_where(service == Service.WRAP and (length < 16 or length % 8 != 0), Status.BAD_LENGTH)
        elif hasattr(request, "target"):
            refuse_where(self.slots[request.target] is not None, Status.OCCUPIED_SLOT)

    def fill(self, request, domain, key):
        self.slots[request.target] = Slot(request.kind, domain, request.export, request.uses, key)

    # What the engine is asked for, and what becomes of its answer.

    def hash(self, request, source, drawn):
        return self.engine.hash(request.alg, request.text)

    def mac(self, request, source, drawn):
        return self.engine.mac(request.alg, source.key, request.text)[: request.length]

    def mac_verify(self, request, source, drawn):
        mac = self.engine.mac(request.alg, source.key, request.text)
        refuse_where(mac[: request.length] != request.mac, Status.AUTH_FAILED)
        return b""

    def seal(self, request, source, drawn):
        ciphertext, tag = self.engine.seal(source.key, drawn, request.aad, request.text)
        return drawn + ciphertext + tag[: request.length]

    def seal_iv(self, request, source, drawn):
        ciphertext, tag = self.engine.seal(source.key, request.iv, request.aad, request.text)
        return ciphertext + tag[: request.length]

    def open(self, request, source, drawn):
        text = self.engine.open(source.key, request.iv, request.aad, request.text, request.tag)
        refuse_where(text is None, Status.AUTH_FAILED)
        return text

    def wrap(self, request, source, drawn):
        return self.engine.wrap(False, source.key, self.slots[request.second].key)

    def wrap_pad(self, request, source, drawn):
        return self.engine.wrap(True, source.key, self.slots[request.second].key)

    def unwrapped(self, pad, request, source):
        key = self.engine.unwrap(pad, source.key, request.wrapped)
        refuse_where(key is None, Status.UNWRAP_FAILED)
        refuse_where(not fits(request.kind, source.domain, len(key)), Status.BAD_LENGTH)
        self.fill(request, source.domain, key)
        return b""

    def unwrap(self, request, source, drawn):
        return self.unwrapped(False, request, source)

    def unwrap_pad(self, request, source, drawn):
        return self.unwrapped(True, request, source)

    def derive(self, request, source, drawn):
        self.fill(request, source.domain, self.engine.derive(source.key, request.label, request.context, request.length))
        return b""

    def random(self, request, source, drawn):
        return drawn

    def generate(self, request, source, drawn):
        self.fill(request, request.domain, drawn)
        return b""

    def reseed(self, request, source, drawn):
        return b""

    # The services that aren't cryptographic.

    def power_on(self, request):
        self.state, self.period = State.INIT, request.period

    def test_step(self, request):
        if self.step == 0:
            self.test(4)
            self.step = 1
        elif self.step == 1:
            if self.engine.mac(1, IMAGE_KEY, self.image) != self.digest:
                raise Failed(Status.TEST_FAILED, IMAGE_DIFFERS)
            self.step = 2
        else:
            self.test(14)
            self.take(STARTUP)
            entropy = self.take(ENTROPY)
            self.generator = self.engine.instantiate(entropy, self.take(NONCE))
            self.state, self.back, self.step = self.back, 0, 0

    def request_tests(self, request):
        self.begin_tests(State.APPROVED if self.state == State.INIT else self.state)

    def show_status(self, request):
        passed = sum(2**number for number in self.tested)
        numbers = passed.to_bytes(2, "big") + self.period.to_bytes(4, "big") + self.count.to_bytes(4, "big")
        return bytes([self.back, self.step]) + numbers

    def show_version(self, request):
        return b"SYMMOD 01.00"

    def select_role(self, request):
        self.state = (State.APPROVED, State.OFFICER, State.USER)[request.role]

    def reset(self, request):
        self.state = State.INIT
        self.forget()

    def entry_begin(self, request):
        self.entry, self.state = SimpleNamespace(header=request, key=b""), State.ENTRY

    def entry_bytes(self, request):
        refuse_where(len(self.entry.key) + len(request.piece) > self.entry.header.length, Status.BAD_LENGTH)
        self.entry.key += request.piece

    def entry_commit(self, request):
        entry, self.entry, self.state = self.entry, None, State.OFFICER
        refuse_where(len(entry.key) != entry.header.length, Status.BAD_LENGTH)
        refuse_where(self.slots[entry.header.target] is not None, Status.OCCUPIED_SLOT)
        refuse_where(self.engine.mac(1, entry.key, header_bytes(entry.header))[:CHECK] != request.check, Status.CHECK_FAILED)
        self.fill(entry.header, entry.header.domain, entry.key)

    def entry_abort(self, request):
        self.entry, self.state = None, State.OFFICER

    def zeroise(self, request):
        self.slots[request.slot], self.rows[request.slot] = None, set()

    def zeroise_all(self, request):
        self.empty_all()

    def show_slot(self, request):
        slot = self.slots[request.slot]
        return slot.block() if slot else b""

    def zeroise_tree(self, request):
        tree = [number for number in range(16) if number == request.slot or request.slot in self.rows[number]]
        for number in tree:
            self.slots[number], self.rows[number] = None, set()


def header_bytes(header):
    fields = bytes([header.target, header.kind, header.domain, header.export])
    return fields + header.uses.to_bytes(4, "big") + bytes([header.length])


SOURCE_KINDS = {
    Service.MAC: Kind.MAC,
    Service.MAC_VERIFY: Kind.MAC,
    Service.SEAL: Kind.AES,
    Service.SEAL_IV: Kind.AES,
    Service.OPEN: Kind.AES,
    Service.WRAP: Kind.KEK,
    Service.UNWRAP: Kind.KEK,
    Service.WRAP_PAD: Kind.KEK,
    Service.UNWRAP_PAD: Kind.KEK,
    Service.DERIVE: Kind.KDF,
}


def source_of(request):
    """The number of the slot whose key is used."""
    return next(getattr(request, name) for name in ("slot", "kek", "source") if hasattr(request, name))


def by_service(services):
    """The method that is named as the service, for each."""
    return {service: getattr(Machine, service.name.lower()) for service in services}


MANAGEMENT = by_service(service for service in Service if not is_cryptographic(service))
ANSWERS = by_service(service for service in Service if is_cryptographic(service))


def frame(service, content, sequence=None):
    """The spelling of a command."""
    head = bytes([0xC5, 1 if sequence is None else 2, service, 0]) + len(content).to_bytes(4, "big")
    return head + (b"" if sequence is None else sequence.to_bytes(4, "big")) + content


def fault(rest):
    """Whether the bytes of a header that is begun can't be those of a command."""
    wrong = [rest[0:1] not in (b"", b"\xc5"), rest[1:2] not in (b"", b"\1", b"\2"), rest[3:4] not in (b"", b"\0")]
    return any(wrong) or (len(rest) >= 8 and int.from_bytes(rest[4:8], "big") > LARGEST_BODY)


def served(machine, stream):
    """The replies to a stream, joined, and the exit status: 0 at a frame's end, 3 for a bad frame, 4 inside a frame."""
    replies = b""
    while stream:
        if fault(stream):
            return replies, 3
        head = 12 if stream[1:2] == b"\2" else 8
        end = head + int.from_bytes(stream[4:8], "big")
        if len(stream) < max(end, head):
            return replies, 4
        sequence = int.from_bytes(stream[8:12], "big") if head == 12 else None
        replies += machine.command(stream[2], stream[head:end], sequence).spelling()
        stream = stream[end:]
    return replies, 0

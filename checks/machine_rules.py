"""The rules that each reply keeps, as docs/INTERFACE.md tells them: over the public state, a command and the head of its reply.

Nothing here was taken from the crates: it is what a reader of the manual would write to look at a recorded dialogue. transcripts.py looks
at whole ones by them.
"""
from dataclasses import dataclass, replace

OFF, INIT, SELF_TEST, APPROVED, OFFICER, USER, ENTRY, ERROR = range(8)
(
    OK, UNKNOWN_SERVICE, NOT_IN_STATE, BAD_BODY, TEST_FAILED, NOISE_FAULT, EMPTY_SLOT, WRONG_KIND, WRONG_DOMAIN, SPENT, OCCUPIED_SLOT,
    NOT_EXPORTABLE, BAD_LENGTH, CHECK_FAILED, AUTH_FAILED, UNWRAP_FAILED, OUT_OF_ORDER,
) = range(17)
NAMES = (
    "PowerOn TestStep RequestTests ShowStatus ShowVersion SelectRole Reset EntryBegin EntryBytes EntryCommit EntryAbort Zeroise ZeroiseAll "
    "ShowSlot ZeroiseTree Hash Mac MacVerify Seal SealIv Open Wrap Unwrap WrapPad UnwrapPad Derive Random Generate Reseed"
).split()
NUMBER = {name: number for number, name in enumerate(NAMES, 1)}
ZERO = bytes(12)
LARGEST_BODY, LARGEST_PAYLOAD = 65600, 65664
LONGEST_HEAD = 28

# "Permitted in", of the table of services.
IN_ROLES = {OFFICER, USER}
PERMITTED = {
    "PowerOn": {OFF}, "TestStep": {SELF_TEST}, "RequestTests": {INIT, APPROVED, OFFICER, USER},
    "ShowStatus": set(range(8)), "ShowVersion": set(range(8)), "SelectRole": {APPROVED, OFFICER, USER}, "Reset": set(range(8)) - {OFF},
    "EntryBegin": {OFFICER}, "EntryBytes": {ENTRY}, "EntryCommit": {ENTRY}, "EntryAbort": {ENTRY},
    "Zeroise": {OFFICER}, "ZeroiseAll": {OFFICER}, "ShowSlot": IN_ROLES, "ZeroiseTree": {OFFICER},
    "Hash": IN_ROLES, "Mac": {USER}, "MacVerify": {USER}, "Seal": {USER}, "SealIv": {USER}, "Open": {USER},
    "Wrap": {OFFICER}, "Unwrap": {OFFICER}, "WrapPad": {OFFICER}, "UnwrapPad": {OFFICER},
    "Derive": IN_ROLES, "Random": IN_ROLES, "Generate": {OFFICER}, "Reseed": {OFFICER},
}

# The refusals past the body's form, of the table of statuses: who may answer them.
CRYPTOGRAPHIC = set(NAMES[15:])
KEYED = {"Mac", "MacVerify", "Seal", "SealIv", "Open", "Wrap", "Unwrap", "WrapPad", "UnwrapPad", "Derive"}
ANSWERED_BY = {
    OK: set(NAMES),
    TEST_FAILED: {"TestStep"} | CRYPTOGRAPHIC - {"Random", "Generate", "Reseed"},
    NOISE_FAULT: {"TestStep", "Seal", "Random", "Generate", "Reseed"},
    EMPTY_SLOT: KEYED, WRONG_KIND: KEYED, SPENT: KEYED,
    WRONG_DOMAIN: {"Mac", "MacVerify", "SealIv", "Wrap", "WrapPad"},
    OCCUPIED_SLOT: {"EntryCommit", "Unwrap", "UnwrapPad", "Derive", "Generate"},
    NOT_EXPORTABLE: {"Wrap", "WrapPad"},
    BAD_LENGTH: {"EntryBytes", "EntryCommit", "Wrap", "UnwrapPad"},
    CHECK_FAILED: {"EntryCommit"},
    AUTH_FAILED: {"MacVerify", "Open"},
    UNWRAP_FAILED: {"Unwrap", "UnwrapPad"},
}
NOISE_CODES = (0x0300, 0x0400, 0x0500, 0x0600)
STEP_CODES = (0x0104, 0x0200, 0x010E)
# The known-answer test of a service; of Hash and Mac it goes by the algorithm.
TESTS = {
    "Seal": 7, "SealIv": 7, "Open": 8, "Wrap": 9, "Unwrap": 10, "WrapPad": 11, "UnwrapPad": 12, "Derive": 13,
}
SIZES = {1: 32, 2: 48, 3: 64}


@dataclass(frozen=True)
class Public:
    """What ShowStatus and the head of a reply tell, and the sequence number that is expected."""

    state: int = OFF
    back: int = 0
    step: int = 0
    period: int = 0
    count: int = 0
    code: int = 0
    expected: int = 1


@dataclass(frozen=True)
class Command:
    service: int
    body: bytes
    number: int | None = None

    def frame(self):
        version, tail = (1, b"") if self.number is None else (2, self.number.to_bytes(4, "big"))
        return bytes([0xC5, version, self.service, 0]) + len(self.body).to_bytes(4, "big") + tail + self.body


@dataclass(frozen=True)
class Head:
    service: int
    number: int | None
    status: int
    state: int
    approved: int
    code: int
    block: bytes
    length: int

    def frame(self):
        version, tail = (1, b"") if self.number is None else (2, self.number.to_bytes(4, "big"))
        return (
            bytes([0x5C, version, self.service, self.status, self.state, self.approved])
            + self.code.to_bytes(2, "big") + self.block + self.length.to_bytes(4, "big") + tail
        )


def read_command(frame):
    assert frame[0] == 0xC5 and frame[3] == 0
    at = 8 if frame[1] == 1 else 12
    length = int.from_bytes(frame[4:8], "big")
    assert len(frame) == at + length
    return Command(frame[2], frame[at:], None if frame[1] == 1 else int.from_bytes(frame[8:12], "big"))


def read_head(frame):
    """The head, or None where these bytes are no reply's."""
    if frame[0] != 0x5C or frame[1] not in (1, 2) or len(frame) < (24 if frame[1] == 1 else 28):
        return None
    length = int.from_bytes(frame[20:24], "big")
    if frame[3] > 16 or frame[4] > 7 or frame[5] > 1 or length > 65664:
        return None
    number = None if frame[1] == 1 else int.from_bytes(frame[24:28], "big")
    return Head(frame[2], number, frame[3], frame[4], frame[5], int.from_bytes(frame[6:8], "big"), frame[8:20], length)


def number(part):
    return int.from_bytes(part, "big")


def fits(kind, domain, length):
    if kind in (1, 2):
        return length in (16, 24, 32)
    return kind in (3, 4) and (14 if domain == 1 else 1) <= length <= 64


def new_parameter(body):
    """EntryBegin's body, which is Generate's too."""
    return (
        len(body) == 9 and body[0] < 16 and 1 <= body[1] <= 4 and body[2] < 2 and body[3] < 2 and number(body[4:8]) >= 1
        and fits(body[1], body[2], body[8])
    )


def target(body):
    return body[0] < 16 and body[1] < 16 and body[0] != body[1] and 1 <= body[2] <= 4 and body[3] < 2 and number(body[4:8]) >= 1


def sealed(body, head, tag_behind):
    """The length of the text of Seal (a head of 6 bytes), SealIv and Open (7), or None where the body isn't of its form."""
    if len(body) < head or body[0] > 15 or not 12 <= body[1] <= 16:
        return None
    iv = body[2] if head == 7 else 0
    if head == 7 and iv == 0:
        return None
    text = len(body) - head - iv - number(body[head - 4 : head]) - (body[1] if tag_behind else 0)
    return text if text >= 0 else None


def mac_form(body):
    return len(body) >= 3 and body[0] < 16 and body[1] in SIZES and 1 <= body[2] <= SIZES[body[1]]


def has_form(name, body):
    """Whether the body is of the service's form."""
    if name == "PowerOn":
        return len(body) == 4 and number(body) <= 1_000_000
    if name == "SelectRole":
        return len(body) == 1 and body[0] <= 2
    if name in ("EntryBegin", "Generate"):
        return new_parameter(body)
    if name == "EntryBytes":
        return 1 <= len(body) <= 64
    if name == "EntryCommit":
        return len(body) == 8
    if name in ("Zeroise", "ZeroiseTree", "ShowSlot"):
        return len(body) == 1 and body[0] < 16
    if name == "Hash":
        return len(body) >= 1 and body[0] in SIZES
    if name == "Mac":
        return mac_form(body)
    if name == "MacVerify":
        return mac_form(body) and len(body) >= 3 + body[2]
    if name == "Seal":
        return sealed(body, 6, False) is not None
    if name in ("SealIv", "Open"):
        return sealed(body, 7, name == "Open") is not None
    if name in ("Wrap", "WrapPad"):
        return len(body) == 2 and max(body) < 16 and body[0] != body[1]
    if name in ("Unwrap", "UnwrapPad"):
        wrapped = len(body) - 8
        if wrapped < (24 if name == "Unwrap" else 16) or wrapped > 72 or wrapped % 8 or not target(body):
            return False
        return name == "UnwrapPad" or fits(body[2], 0, wrapped - 8)
    if name == "Derive":
        return len(body) >= 10 + body[9] and len(body) - 10 - body[9] <= 255 and target(body) and fits(body[2], 1, body[8]) if len(body) >= 10 else False
    if name == "Random":
        return 4 <= len(body) <= 260 and 1 <= number(body[:4]) <= 65536
    if name == "Reseed":
        return len(body) <= 256
    return body == b""


def payload_fits(name, body, length):
    """Whether a service that is done may have a payload of this length."""
    if name == "Hash":
        return length == SIZES[body[0]]
    if name == "Mac":
        return length == body[2]
    if name == "Seal":
        return length == 12 + sealed(body, 6, False) + body[1]
    if name == "SealIv":
        return length == sealed(body, 7, False) + body[1]
    if name == "Open":
        return length == sealed(body, 7, True)
    if name in ("Wrap", "WrapPad"):
        return length % 8 == 0 and (24 if name == "Wrap" else 16) <= length <= 72
    if name == "Random":
        return length == number(body[:4])
    return length == 0


def block_fits(name, found, block):
    """Whether a service that is done may tell this block."""
    if name == "ShowStatus":
        return (
            block[:2] == bytes([found.back, found.step]) and number(block[4:8]) == found.period and number(block[8:]) == found.count
        )
    if name == "ShowVersion":
        return block == b"SYMMOD 01.00"
    if name == "ShowSlot" and block[0]:
        return block[0] == 1 and block[2] < 2 and block[3] < 2 and block[5:8] == bytes(3) and fits(block[1], block[2], block[4])
    return block == ZERO


def indicated(name, body, head):
    """Whether the indicator is one that may be told: the domain of the slots, which no reply tells, may make it 0."""
    use = head.status == OK and name in CRYPTOGRAPHIC and name != "SealIv" and (name not in ("Mac", "MacVerify") or body[2] >= 4)
    if name in ("Hash", "Random", "Reseed"):
        return head.approved == use
    return use or not head.approved


def done(name, body, found):
    """The public state after a service that isn't cryptographic, where it is done."""
    if name == "PowerOn":
        return replace(found, state=INIT, period=number(body), count=0)
    if name == "TestStep" and found.step < 2:
        return replace(found, step=found.step + 1)
    if name == "TestStep":
        return replace(found, state=found.back, back=0, step=0)
    if name == "RequestTests":
        return replace(found, state=SELF_TEST, back=APPROVED if found.state == INIT else found.state, step=0, count=0)
    if name == "SelectRole":
        return replace(found, state=(APPROVED, OFFICER, USER)[body[0]])
    if name == "Reset":
        return replace(found, state=INIT, back=0, step=0, count=0, code=0)
    if name == "EntryBegin":
        return replace(found, state=ENTRY)
    if name == "EntryAbort":
        return replace(found, state=OFFICER)
    return found


def failure_codes(name, body, found, status):
    """The error codes that may tell why it failed."""
    if status == NOISE_FAULT:
        return NOISE_CODES if name != "TestStep" or found.step == 2 else ()
    if name == "TestStep":
        return (STEP_CODES[found.step],)
    test = body[0] if name == "Hash" else 3 + body[1] if name in ("Mac", "MacVerify") else TESTS[name]
    return (0x0100 + test,)


def after(name, body, found, head):
    """The public state after a service that was begun, or None where no failure has the code."""
    used = replace(found, count=found.count + 1) if name in CRYPTOGRAPHIC and found.period else found
    if head.status in (TEST_FAILED, NOISE_FAULT):
        if head.code not in failure_codes(name, body, found, head.status):
            return None
        return replace(used, state=ERROR, back=0, step=0, code=head.code)
    if name == "EntryCommit":
        return replace(found, state=OFFICER)
    if name not in CRYPTOGRAPHIC:
        return done(name, body, found) if head.status == OK else found
    if used.period and used.count == used.period:
        return replace(used, state=SELF_TEST, back=used.state, step=0, count=0)
    return used


def refusal(public, command):
    """The first reason to refuse it at once, or None."""
    if command.number is not None and command.number != public.expected:
        return OUT_OF_ORDER
    if not 1 <= command.service <= len(NAMES):
        return UNKNOWN_SERVICE
    name = NAMES[command.service - 1]
    if public.state not in PERMITTED[name]:
        return NOT_IN_STATE
    return None if has_form(name, command.body) else BAD_BODY


def step(public, command, head):
    """The public state after the pair, or None where it breaks a rule."""
    if (head.service, head.number) != (command.service, command.number):
        return None
    reason = refusal(public, command)
    if reason == OUT_OF_ORDER:
        found, block = public, public.expected.to_bytes(4, "big") + bytes(8)
    else:
        found, block = public if command.number is None else replace(public, expected=(public.expected + 1) % 2**32), ZERO
    if reason is not None:
        lawful = head.status == reason and head.block == block and head.length == 0 and head.approved == 0
        then = found
    else:
        name = NAMES[command.service - 1]
        if name not in ANSWERED_BY.get(head.status, ()):
            return None
        then = after(name, command.body, found, head)
        if head.status == OK:
            lawful = payload_fits(name, command.body, head.length) and block_fits(name, found, head.block)
        else:
            lawful = head.length == 0 and head.block == ZERO
        lawful = lawful and indicated(name, command.body, head)
    return then if then is not None and lawful and (head.state, head.code) == (then.state, then.code) else None


class BadFrame(Exception):
    """The offset of the first fault that the bytes show, and that of the byte with which it shows."""

    def __init__(self, place, shown):
        super().__init__(place, shown)
        self.place, self.shown = place, shown


# Of each kind of frame: the bytes that may stand at a place, in the order in which they are looked at; where the length of what is
# told stands, and its limit; the size of a head without a number.
COMMAND = (((0, (0xC5,)), (1, (1, 2)), (3, (0,))), 4, LARGEST_BODY, 8)
REPLY = (((0, (0x5C,)), (1, (1, 2)), (3, range(17)), (4, range(8)), (5, (0, 1))), 20, LARGEST_PAYLOAD, 24)


def frame_end(transcript, at, kind):
    """Where the frame that begins here ends, or None where it isn't whole."""
    good_bytes, length_at, limit, size = kind
    head = transcript[at : at + LONGEST_HEAD]
    for place, good in good_bytes:
        if len(head) > place and head[place] not in good:
            raise BadFrame(at + place, at + place)
    if len(head) < length_at + 4:
        return None
    told = number(head[length_at : length_at + 4])
    if told > limit:
        raise BadFrame(at + length_at, at + length_at + 3)
    end = at + size + (4 if head[1] == 2 else 0) + told
    return end if end <= len(transcript) else None


def pair_at(transcript, at):
    """Where the reply of the pair that begins here begins, and where it ends; None where the pair isn't whole."""
    reply = frame_end(transcript, at, COMMAND)
    end = None if reply is None else frame_end(transcript, reply, REPLY)
    return None if end is None else (reply, end)


def read_transcript(transcript):
    """How many whole pairs stand at the front; the first fault behind them and the byte with which it shows, or None; and whether
    nothing stands behind them."""
    pairs, at = 0, 0
    try:
        while pair := pair_at(transcript, at):
            pairs, at = pairs + 1, pair[1]
    except BadFrame as fault:
        return pairs, (fault.place, fault.shown), False
    return pairs, None, at == len(transcript)

#!/usr/bin/env python3
"""A client of Warlinden in one file, for Python 3.8 or later and nothing else. docs/INTERFACE.md says what it knows.

As a library:

    from client import Algorithm, Module, Role

    with Module(["./warlinden", "serve", "image", "digest", "/dev/random"]) as module:
        module.power_on(period=0)
        module.run_tests()
        module.select_role(Role.User)
        print(module.hash(Algorithm.SHA256, b"abc").payload.hex())

As a command, where PROGRAM is ./warlinden or the program that it builds:

    client.py talk [--numbered] -- PROGRAM serve IMAGE DIGEST NOISE
                                                                 sends the commands of its lines, and shows each reply
    client.py talk [--numbered] --socket PATH                    the same over a socket
    client.py decode                                             shows the replies whose bytes it is given

A line of `talk` is the name of a service, or its number in hex, and its body in hex, as `Hash 01616263`. demo.py plays worked
dialogues with this client.
"""
import enum
import hmac
import socket
import subprocess
import sys

LARGEST_BODY = 65_600
LARGEST_PAYLOAD = 65_664
HEADER_LENGTHS = {1: 24, 2: 28}
IMAGE_KEY = bytes(range(32))
MOST_USES = 2**32 - 1
# Of the IV that Seal draws, and of a tag where none is asked for.
IV_LENGTH, TAG_LENGTH = 12, 16


class Service(enum.IntEnum):
    PowerOn = 0x01
    TestStep = 0x02
    RequestTests = 0x03
    ShowStatus = 0x04
    ShowVersion = 0x05
    SelectRole = 0x06
    Reset = 0x07
    EntryBegin = 0x08
    EntryBytes = 0x09
    EntryCommit = 0x0A
    EntryAbort = 0x0B
    Zeroise = 0x0C
    ZeroiseAll = 0x0D
    ShowSlot = 0x0E
    ZeroiseTree = 0x0F
    Hash = 0x10
    Mac = 0x11
    MacVerify = 0x12
    Seal = 0x13
    SealIv = 0x14
    Open = 0x15
    Wrap = 0x16
    Unwrap = 0x17
    WrapPad = 0x18
    UnwrapPad = 0x19
    Derive = 0x1A
    Random = 0x1B
    Generate = 0x1C
    Reseed = 0x1D


class State(enum.IntEnum):
    Off = 0
    Init = 1
    SelfTest = 2
    Approved = 3
    Officer = 4
    User = 5
    Entry = 6
    Error = 7


class Status(enum.IntEnum):
    Ok = 0
    UnknownService = 1
    NotInState = 2
    BadBody = 3
    TestFailed = 4
    NoiseFault = 5
    EmptySlot = 6
    WrongKind = 7
    WrongDomain = 8
    Spent = 9
    OccupiedSlot = 10
    NotExportable = 11
    BadLength = 12
    CheckFailed = 13
    AuthFailed = 14
    UnwrapFailed = 15
    OutOfOrder = 16


class Role(enum.IntEnum):
    Nobody = 0
    Officer = 1
    User = 2


class Algorithm(enum.IntEnum):
    SHA256 = 1
    SHA384 = 2
    SHA512 = 3


class Kind(enum.IntEnum):
    AesKey = 1
    WrappingKey = 2
    MacKey = 3
    DerivationKey = 4


class Domain(enum.IntEnum):
    Other = 0
    Approved = 1


EXIT_STATUSES = {
    0: "the input ended after a whole command",
    1: "a test vector failed",
    2: "the words were none that the program knows",
    3: "bad frame: the input showed bytes that no command has",
    4: "truncated frame: the input ended inside a command",
    5: "a read failed",
    6: "a write failed",
    7: "out of memory",
    8: "a file could not be read",
    9: "the image has more than 16,777,216 bytes",
    10: "a line is no command, or no test vector",
    11: "the digest file is not 64 hex digits and at most one line feed",
    12: "stream too long: 2^40 bytes were read",
    13: "the file of keys has not 64 bytes",
    14: "the state was not Officer where a backup was to be written or restored",
    15: "the backup is not right, or not under these keys",
    16: "a pair of the transcript breaks a rule",
    125: "the launcher could not write",
    126: "the launcher could not prove and build the program",
    127: "the launcher found no program, and nothing to build it with",
}


def named(kind, number):
    """The name of a number, or `Service 0x7e` where a later module has one that this file does not know."""
    try:
        return kind(number).name
    except ValueError:
        return f"{kind.__name__} {number:#04x}"


def exit_in_words(status):
    if status < 0:
        return f"ended by signal {-status}"
    return f"exit status {status}, {EXIT_STATUSES.get(status, 'which this client does not know')}"


FAILURES = {
    0x0200: "the image has another digest",
    0x0300: "the noise ended",
    0x0400: "the noise could not be read",
    0x0500: "the noise failed the repetition count test",
    0x0600: "the noise failed the adaptive proportion test",
}


def failure_in_words(code):
    """What failed by an error code, where this client knows it."""
    if 0x0101 <= code <= 0x010E:
        return f", known-answer test {code - 0x0100} failed"
    return f", {FAILURES[code]}" if code in FAILURES else ""


def command_frame(service, body=b"", sequence=None):
    """The bytes of a command: of version 1, or of version 2 where it has a number."""
    if len(body) > LARGEST_BODY:
        raise ValueError(f"a body has at most {LARGEST_BODY} bytes, and this one {len(body)}")
    head = bytes([0xC5, 1 if sequence is None else 2, service, 0]) + len(body).to_bytes(4, "big")
    return head + (b"" if sequence is None else sequence.to_bytes(4, "big")) + body


class Reply:
    """A reply. `service`, `status` and `state` are numbers, which compare with the names above."""

    def __init__(self, header, payload=b""):
        version = header[1]
        if header[0] != 0x5C or len(header) != HEADER_LENGTHS[version]:
            raise ValueError(f"no header of a reply: {header.hex()}")
        self.service, self.status, self.state = header[2], header[3], header[4]
        self.is_approved = header[5] == 1
        self.error_code = int.from_bytes(header[6:8], "big")
        self.block = header[8:20]
        self.sequence = int.from_bytes(header[24:28], "big") if version == 2 else None
        self.payload = payload
        self.frame = header + payload

    @property
    def is_ok(self):
        return self.status == Status.Ok

    @property
    def expected_sequence(self):
        """The number that the module expects next, where the command had another."""
        return int.from_bytes(self.block[:4], "big") if self.status == Status.OutOfOrder else None

    def block_in_words(self):
        block = self.block
        if self.status == Status.OutOfOrder:
            return f"the number expected is {self.expected_sequence}"
        if not self.is_ok:
            return ""
        if self.service == Service.ShowStatus:
            uses = f"period {int.from_bytes(block[4:8], 'big')}, {int.from_bytes(block[8:12], 'big')} uses counted"
            passed = [str(test) for test in range(16) if int.from_bytes(block[2:4], "big") >> test & 1]
            if passed:
                uses += f", tests passed: {', '.join(passed)}"
            if self.state == State.SelfTest:
                return f"back to {named(State, block[0])} after the tests, {block[1]} steps done, {uses}"
            return uses
        if self.service == Service.ShowVersion:
            return f"`{block.decode('ascii', 'replace')}`"
        if self.service == Service.ShowSlot and block[0] == 0:
            return "the slot is empty"
        if self.service == Service.ShowSlot:
            export = "may be exported" if block[3] else "not for export"
            uses = int.from_bytes(block[8:12], "big")
            return (f"{named(Kind, block[1])} of {block[4]} bytes, domain {named(Domain, block[2])}, {export}, {uses} uses left")
        return ""

    def in_words(self):
        words = [f"{named(Status, self.status)}, state {named(State, self.state)}"]
        if self.is_ok and self.service >= Service.Hash:
            words.append("an approved use" if self.is_approved else "not an approved use")
        if self.error_code:
            words.append(f"error code {self.error_code:#06x}{failure_in_words(self.error_code)}")
        if self.block_in_words():
            words.append(self.block_in_words())
        if self.payload:
            words.append(f"{len(self.payload)} bytes of payload")
        if self.sequence is not None:
            words.append(f"to the command with number {self.sequence}")
        return "; ".join(words)


class Ended(Exception):
    """The replies ended where one was waited for."""


def read_exactly(stream, count):
    """So many bytes, or those that come before the end: a pipe may hand them out in pieces."""
    got = b""
    while len(got) < count:
        piece = stream.read(count - len(got))
        if not piece:
            break
        got += piece
    return got


def read_reply(stream):
    """The next reply, and None at the end of the stream."""
    header = read_exactly(stream, 2)
    if not header:
        return None
    if header[0] != 0x5C or header[-1] not in HEADER_LENGTHS:
        raise ValueError(f"no reply begins with {header.hex()}")
    header += read_exactly(stream, HEADER_LENGTHS[header[1]] - 2)
    if len(header) < HEADER_LENGTHS[header[1]]:
        raise Ended(f"a header was cut off: {header.hex()}")
    length = int.from_bytes(header[20:24], "big")
    payload = read_exactly(stream, length)
    if length > LARGEST_PAYLOAD or len(payload) < length:
        raise Ended(f"a payload was cut off, or is none: {header.hex()}")
    return Reply(header, payload)


def entry_header(slot, kind, domain, exportable, uses, length):
    """The body of EntryBegin and of Generate."""
    return bytes([slot, kind, domain, exportable]) + uses.to_bytes(4, "big") + bytes([length])


def seal_body(slot, text, aad, tag_length):
    return bytes([slot, tag_length]) + len(aad).to_bytes(4, "big") + aad + text


def seal_iv_body(slot, iv, text, aad, tag_length):
    return bytes([slot, tag_length, len(iv)]) + len(aad).to_bytes(4, "big") + iv + aad + text


def open_body(slot, iv, ciphertext, tag, aad):
    return seal_iv_body(slot, iv, ciphertext + tag, aad, len(tag))


def parts_of_sealed(payload, tag_length=TAG_LENGTH):
    """IV, ciphertext and tag of what Seal gave."""
    end = len(payload) - tag_length
    return payload[:IV_LENGTH], payload[IV_LENGTH:end], payload[end:]


def target(slot, kind, exportable, uses):
    """What Unwrap, UnwrapPad and Derive are told of the slot that they fill."""
    return bytes([slot, kind, exportable]) + uses.to_bytes(4, "big")


def unwrap_body(wrapping, slot, kind, wrapped, exportable, uses):
    return bytes([wrapping]) + target(slot, kind, exportable, uses) + wrapped


def derive_body(source, slot, kind, length, label, context, exportable, uses):
    return bytes([source]) + target(slot, kind, exportable, uses) + bytes([length, len(label)]) + label + context


def image_digest(image):
    """The digest of an image, as the program's `digest` writes it."""
    return hmac.new(IMAGE_KEY, image, "sha256").hexdigest()


def check_value(header, parameter):
    """What EntryCommit takes: it ties the parameter to the body that began its entry."""
    return hmac.new(parameter, header, "sha256").digest()[:8]


class Client:
    """A conversation over two streams of bytes: one command, its reply, and the next."""

    def __init__(self, replies, commands, is_numbered=False):
        self.replies, self.commands = replies, commands
        self.is_numbered, self.next_sequence = is_numbered, 1

    def frame(self, service, body=b""):
        """The frame of a command, which has the next number where commands are numbered."""
        return command_frame(service, body, self.next_sequence if self.is_numbered else None)

    def ask(self, service, body=b""):
        """Sends a command and waits for its reply."""
        return self.ask_frame(self.frame(service, body))

    def ask_frame(self, frame):
        try:
            self.commands.write(frame)
            self.commands.flush()
        except BrokenPipeError:
            raise Ended("the module takes no more commands") from None
        reply = read_reply(self.replies)
        if reply is None:
            raise Ended("the replies ended")
        if reply.status == Status.OutOfOrder:
            self.next_sequence = reply.expected_sequence
        elif reply.sequence is not None:
            self.next_sequence = (reply.sequence + 1) % 2**32
        return reply

    def power_on(self, period=0):
        return self.ask(Service.PowerOn, period.to_bytes(4, "big"))

    def request_tests(self):
        return self.ask(Service.RequestTests)

    def test_step(self):
        return self.ask(Service.TestStep)

    def run_tests(self):
        """Asks for the tests and makes their steps, and answers the last reply or the first refusal."""
        reply = self.request_tests()
        while reply.is_ok and reply.state == State.SelfTest:
            reply = self.test_step()
        return reply

    def show_status(self):
        return self.ask(Service.ShowStatus)

    def show_version(self):
        return self.ask(Service.ShowVersion)

    def select_role(self, role):
        return self.ask(Service.SelectRole, bytes([role]))

    def reset(self):
        return self.ask(Service.Reset)

    def enter(self, slot, kind, parameter, domain=Domain.Approved, exportable=False, uses=MOST_USES):
        """Enters a key, and answers the first refusal or the reply to EntryCommit. A refused piece ends the entry."""
        header = entry_header(slot, kind, domain, exportable, uses, len(parameter))
        begun = self.ask(Service.EntryBegin, header)
        if not begun.is_ok:
            return begun
        taken = self.ask(Service.EntryBytes, parameter)
        if not taken.is_ok:
            self.ask(Service.EntryAbort)
            return taken
        return self.ask(Service.EntryCommit, check_value(header, parameter))

    def zeroise(self, slot):
        return self.ask(Service.Zeroise, bytes([slot]))

    def zeroise_tree(self, slot):
        return self.ask(Service.ZeroiseTree, bytes([slot]))

    def zeroise_all(self):
        return self.ask(Service.ZeroiseAll)

    def show_slot(self, slot):
        return self.ask(Service.ShowSlot, bytes([slot]))

    def hash(self, algorithm, text):
        return self.ask(Service.Hash, bytes([algorithm]) + text)

    def mac(self, slot, algorithm, length, text):
        return self.ask(Service.Mac, bytes([slot, algorithm, length]) + text)

    def mac_verify(self, slot, algorithm, mac, text):
        return self.ask(Service.MacVerify, bytes([slot, algorithm, len(mac)]) + mac + text)

    def seal(self, slot, text, aad=b"", tag_length=TAG_LENGTH):
        """The payload is IV, ciphertext and tag: see `parts_of_sealed`."""
        return self.ask(Service.Seal, seal_body(slot, text, aad, tag_length))

    def seal_iv(self, slot, iv, text, aad=b"", tag_length=TAG_LENGTH):
        """For protocols that say the IV: none may come twice under one key."""
        return self.ask(Service.SealIv, seal_iv_body(slot, iv, text, aad, tag_length))

    def open(self, slot, iv, ciphertext, tag, aad=b""):
        return self.ask(Service.Open, open_body(slot, iv, ciphertext, tag, aad))

    def wrap(self, wrapping, slot):
        return self.ask(Service.Wrap, bytes([wrapping, slot]))

    def unwrap(self, wrapping, slot, kind, wrapped, exportable=False, uses=MOST_USES):
        return self.ask(Service.Unwrap, unwrap_body(wrapping, slot, kind, wrapped, exportable, uses))

    def wrap_pad(self, wrapping, slot):
        return self.ask(Service.WrapPad, bytes([wrapping, slot]))

    def unwrap_pad(self, wrapping, slot, kind, wrapped, exportable=False, uses=MOST_USES):
        return self.ask(Service.UnwrapPad, unwrap_body(wrapping, slot, kind, wrapped, exportable, uses))

    def derive(self, source, slot, kind, length, label=b"", context=b"", exportable=False, uses=MOST_USES):
        return self.ask(Service.Derive, derive_body(source, slot, kind, length, label, context, exportable, uses))

    def random(self, length, additional=b""):
        return self.ask(Service.Random, length.to_bytes(4, "big") + additional)

    def generate(self, slot, kind, length, domain=Domain.Approved, exportable=False, uses=MOST_USES):
        return self.ask(Service.Generate, entry_header(slot, kind, domain, exportable, uses, length))

    def reseed(self, additional=b""):
        return self.ask(Service.Reseed, additional)


class Module(Client):
    """A module that runs as a process of its own, for as long as the `with` block lasts."""

    def __init__(self, words, is_numbered=False):
        self.process = subprocess.Popen(words, stdin=subprocess.PIPE, stdout=subprocess.PIPE)
        super().__init__(self.process.stdout, self.process.stdin, is_numbered)

    def __enter__(self):
        return self

    def ask_frame(self, frame):
        try:
            return super().ask_frame(frame)
        except Ended as ended:
            raise Ended(f"{ended}: {exit_in_words(self.end())}") from None

    def end(self):
        """Ends the input, and answers the exit status. All keys are gone with the process."""
        try:
            self.commands.close()
        except BrokenPipeError:
            pass
        self.replies.close()
        return self.process.wait()

    def __exit__(self, *_):
        self.end()


class SocketModule(Client):
    """A module behind a socket of this machine, as docs/INTERFACE.md sets one up."""

    def __init__(self, path, is_numbered=False):
        self.socket = socket.socket(socket.AF_UNIX)
        self.socket.connect(path)
        super().__init__(self.socket.makefile("rb"), self.socket.makefile("wb"), is_numbered)

    def __enter__(self):
        return self

    def end(self):
        """Ends the input. A socket tells no exit status."""
        self.socket.shutdown(socket.SHUT_WR)
        self.replies.read()
        self.socket.close()

    def __exit__(self, *_):
        self.end()


def show_exchange(frame, reply, what=""):
    print(f"{named(Service, reply.service)}{': ' + what if what else ''}")
    print(f"    command {frame.hex()}")
    print(f"    reply   {reply.frame[:len(reply.frame) - len(reply.payload)].hex()} {reply.payload.hex()}".rstrip())


def service_and_body(words):
    """What a line names: a service by its name or its number in hex, and its body in hex."""
    try:
        service = Service[words[0]] if words[0] in Service.__members__ else int(words[0], 16)
        return service, bytes.fromhex("".join(words[1:]))
    except ValueError:
        raise ValueError(f"no service and its body in hex: {' '.join(words)}") from None


def talk(client):
    for line in sys.stdin:
        words = line.split("#")[0].split()
        if not words:
            continue
        frame = client.frame(*service_and_body(words))
        reply = client.ask_frame(frame)
        show_exchange(frame, reply)
        print(f"    {reply.in_words()}", flush=True)
    status = client.end()
    if status is not None:
        print(f"The input ends: {exit_in_words(status)}")
    return status or 0


def decode():
    while True:
        reply = read_reply(sys.stdin.buffer)
        if reply is None:
            return 0
        print(f"{named(Service, reply.service)}: {reply.in_words()}")
        if reply.payload:
            print(f"    {reply.payload.hex()}")


def main(words):
    options, program = words[1:], []
    if "--" in options:
        options, program = options[: options.index("--")], options[options.index("--") + 1 :]
    is_numbered = "--numbered" in options
    options = [word for word in options if word != "--numbered"]
    if words[:1] == ["talk"] and program and not options:
        return talk(Module(program, is_numbered))
    if words[:1] == ["talk"] and not program and len(options) == 2 and options[0] == "--socket":
        return talk(SocketModule(options[1], is_numbered))
    if words == ["decode"]:
        return decode()
    print(__doc__[__doc__.index("As a command") :], file=sys.stderr, end="")
    return 2


def run(main):
    """Runs a command by its words, and answers its exit status; what hinders it is told on standard error."""
    try:
        status = main(sys.argv[1:])
        sys.stdout.flush()
        return status
    except Ended as ended:
        print(f"client: {ended}", file=sys.stderr)
        return 1
    except ValueError as fault:
        print(f"client: {fault}", file=sys.stderr)
        return 1
    except OSError as fault:
        # so that Python does not try again, and complain, as it ends
        sys.stdout = None
        print(f"client: cannot reach the module, or cannot write: {fault.strerror}", file=sys.stderr)
        return 125


if __name__ == "__main__":
    sys.exit(run(main))

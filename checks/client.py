"""Plays a client against the program over real pipes, and asserts exact bytes and exit statuses.

usage: client.py PROGRAM LAUNCHER. Each talk with the program has a deadline. What is expected is written out here.
"""
import os
import re
import select
import signal
import subprocess
import sys
import tempfile
import time

SECONDS = 30

POWER_ON_3 = "c50101000000000400000003"
SHOW_STATUS = "c501040000000000"
RESET = "c501070000000000"

POWERED_ON = "5c0101000100000000000000000000000000000000000000"
SHOWN_3 = "5c0104000100000000000000000000030000000000000000"
SHOWN_OFF = "5c0104000000000000000000000000000000000000000000"
WAS_RESET = "5c0107000100000000000000000000000000000000000000"

# The image 616263, and its HMAC-SHA-256 under the key of the bytes 00 to 1f, by `openssl dgst -sha256 -mac HMAC`.
IMAGE = b"abc"
DIGEST = b"f0133729c4163dede81e21cd47839256da58171238c8a0d874397c73b14e1e47\n"
# The samples that the three steps of the tests take, and a reseed.
PASS = 1408
RESEED = 256

TALK = [(POWER_ON_3, POWERED_ON), (SHOW_STATUS, SHOWN_3), (RESET, WAS_RESET)]
COMMANDS = "".join(command for command, _ in TALK)
REPLIES = "".join(reply for _, reply in TALK)

# What the first of several reasons for a refusal is.
FIRST_REFUSALS = [
    # an unknown service, before the state and the body
    ("c5011e0000000000", "5c011e010000000000000000000000000000000000000000"),
    ("c5017e0000000001ff", "5c017e010000000000000000000000000000000000000000"),
    ("c501000000000000", "5c0100010000000000000000000000000000000000000000"),
    ("c501ff0000000000", "5c01ff010000000000000000000000000000000000000000"),
    # Reset in Off, with a good and with a bad body
    ("c501070000000000", "5c0107020000000000000000000000000000000000000000"),
    ("c50107000000000100", "5c0107020000000000000000000000000000000000000000"),
    # PowerOn with no body, with 3 and 5 bytes, and with a period of 1,000,001
    ("c501010000000000", "5c0101030000000000000000000000000000000000000000"),
    ("c501010000000003000003", "5c0101030000000000000000000000000000000000000000"),
    ("c5010100000000050000000300", "5c0101030000000000000000000000000000000000000000"),
    ("c501010000000004000f4241", "5c0101030000000000000000000000000000000000000000"),
    # ShowStatus with a body, and that nothing has changed
    ("c50104000000000100", "5c0104030000000000000000000000000000000000000000"),
    ("c501040000000000", "5c0104000000000000000000000000000000000000000000"),
    # PowerOn with the largest period
    ("c501010000000004000f4240", "5c0101000100000000000000000000000000000000000000"),
    ("c501040000000000", "5c0104000100000000000000000f42400000000000000000"),
    # PowerOn again, with a good and with a bad body
    ("c50101000000000400000003", "5c0101020100000000000000000000000000000000000000"),
    ("c501010000000000", "5c0101020100000000000000000000000000000000000000"),
    # Reset with a body, and that the period stays
    ("c50107000000000100", "5c0107030100000000000000000000000000000000000000"),
    ("c501070000000000", "5c0107000100000000000000000000000000000000000000"),
    ("c501040000000000", "5c0104000100000000000000000f42400000000000000000"),
]

# From Off to Approved, with period 3.
TO_APPROVED = [
    (POWER_ON_3, POWERED_ON),
    # tests are due, no role can be chosen, and they return to Approved
    ("c501030000000000", "5c0103000200000000000000000000000000000000000000"),
    ("c50106000000000101", "5c0106020200000000000000000000000000000000000000"),
    ("c501020000000000", "5c0102000200000000000000000000000000000000000000"),
    ("c501040000000000", "5c0104000200000003010010000000030000000000000000"),
    ("c501020000000000", "5c0102000200000000000000000000000000000000000000"),
    ("c501020000000000", "5c0102000300000000000000000000000000000000000000"),
]

ROLES = [
    # the officer's role, and a number of no role
    ("c50106000000000101", "5c0106000400000000000000000000000000000000000000"),
    ("c50106000000000103", "5c0106030400000000000000000000000000000000000000"),
    # name and version
    ("c501050000000000", "5c0105000400000053594d4d4f442030312e303000000000"),
    ("c501070000000000", "5c0107000100000000000000000000000000000000000000"),
]

# From Approved: a parameter is entered and given up, and slots are shown and emptied.
ENTRY = [
    ("c50106000000000101", "5c0106000400000000000000000000000000000000000000"),
    # a MAC key of 4 bytes for slot 3, of the domain Other, with 100 uses
    ("c501080000000009030300000000006404", "5c0108000600000000000000000000000000000000000000"),
    # five bytes are more than the four that it has, four are not
    ("c5010900000000054a65666500", "5c01090c0600000000000000000000000000000000000000"),
    ("c5010900000000044a656665", "5c0109000600000000000000000000000000000000000000"),
    # nothing else is permitted meanwhile
    ("c501080000000009030300000000006404", "5c0108020600000000000000000000000000000000000000"),
    ("c5010e000000000103", "5c010e020600000000000000000000000000000000000000"),
    # given up, and the slot is as empty as before
    ("c5010b0000000000", "5c010b000400000000000000000000000000000000000000"),
    ("c5010e000000000103", "5c010e000400000000000000000000000000000000000000"),
    ("c5010c000000000103", "5c010c000400000000000000000000000000000000000000"),
    ("c5010d0000000000", "5c010d000400000000000000000000000000000000000000"),
    # no such slot
    ("c5010c000000000110", "5c010c030400000000000000000000000000000000000000"),
    ("c5010e000000000110", "5c010e030400000000000000000000000000000000000000"),
    # the user may look, and do no more
    ("c50106000000000102", "5c0106000500000000000000000000000000000000000000"),
    ("c5010e000000000103", "5c010e000500000000000000000000000000000000000000"),
    ("c5010d0000000000", "5c010d020500000000000000000000000000000000000000"),
    ("c501080000000009030300000000006404", "5c0108020500000000000000000000000000000000000000"),
]

# From Approved with period 3: a parameter is committed and used, and each third use makes tests due.
COMMIT = [
    ("c50106000000000101", "5c0106000400000000000000000000000000000000000000"),
    # the MAC key "Jefe" for slot 3, of the domain Other, with 100 uses: a wrong check value, and the slot is empty
    ("c501080000000009030300000000006404", "5c0108000600000000000000000000000000000000000000"),
    ("c5010900000000044a656665", "5c0109000600000000000000000000000000000000000000"),
    ("c5010a00000000085f8fa0da1550a5ad", "5c010a0d0400000000000000000000000000000000000000"),
    ("c5010e000000000103", "5c010e000400000000000000000000000000000000000000"),
    # a byte is missing
    ("c501080000000009030300000000006404", "5c0108000600000000000000000000000000000000000000"),
    ("c5010900000000034a6566", "5c0109000600000000000000000000000000000000000000"),
    ("c5010a00000000085f8fa0da1550a5ac", "5c010a0c0400000000000000000000000000000000000000"),
    # the right check value, after one of seven bytes, and the slot is full
    ("c501080000000009030300000000006404", "5c0108000600000000000000000000000000000000000000"),
    ("c5010900000000044a656665", "5c0109000600000000000000000000000000000000000000"),
    ("c5010a00000000075f8fa0da1550a5", "5c010a030600000000000000000000000000000000000000"),
    ("c5010a00000000085f8fa0da1550a5ac", "5c010a000400000000000000000000000000000000000000"),
    ("c5010e000000000103", "5c010e000400000001030000040000000000006400000000"),
    # a full slot takes no other
    ("c501080000000009030300000000006404", "5c0108000600000000000000000000000000000000000000"),
    ("c5010900000000044a656665", "5c0109000600000000000000000000000000000000000000"),
    ("c5010a00000000085f8fa0da1550a5ac", "5c010a0a0400000000000000000000000000000000000000"),
    # the officer makes no MAC
    ("c501110000000003030120", "5c0111020400000000000000000000000000000000000000"),
]

# "what do ya want for nothing?", its MAC under "Jefe", and the digest of "abc", with SHA-256
QUESTION = "7768617420646f2079612077616e7420666f72206e6f7468696e673f"
JEFE_MAC = "5bdcc146bf60754e6a042426089575c75a003f089d2739839dec58b964ec3843"
ABC_DIGEST = "ba7816bf8f01cfea414140de5dae2223b00361a396177a9cb410ff61f20015ad"

# From Officer, with that slot full.
USE = [
    ("c50106000000000102", "5c0106000500000000000000000000000000000000000000"),
    # the digest of "abc" with SHA-256
    ("c50110000000000401616263", "5c0110000501000000000000000000000000000000000020" + ABC_DIGEST),
    # its MAC with SHA-256
    ("c50111000000001f030120" + QUESTION, "5c0111000500000000000000000000000000000000000020" + JEFE_MAC),
    # the tests 1, 4 and 14 passed, two uses are counted, and the third makes tests due
    ("c501040000000000", "5c0104000500000000004012000000030000000200000000"),
    ("c50112000000003f030120" + JEFE_MAC + QUESTION, "5c0112000200000000000000000000000000000000000000"),
    ("c50110000000000401616263", "5c0110020200000000000000000000000000000000000000"),
    ("c501020000000000", "5c0102000200000000000000000000000000000000000000"),
    ("c501020000000000", "5c0102000200000000000000000000000000000000000000"),
    ("c501020000000000", "5c0102000500000000000000000000000000000000000000"),
    # the first four bytes of the MAC, and the same with one bit turned
    ("c5011200000000230301045bdcc146" + QUESTION, "5c0112000500000000000000000000000000000000000000"),
    ("c5011200000000230301045bdcc147" + QUESTION, "5c01120e0500000000000000000000000000000000000000"),
    # four uses are spent, and a MAC under an empty slot counts for the period too
    ("c5010e000000000103", "5c010e000500000001030000040000000000006000000000"),
    ("c501110000000003040120", "5c0111060200000000000000000000000000000000000000"),
    # Reset empties the slot
    ("c501070000000000", "5c0107000100000000000000000000000000000000000000"),
]

# Numbered commands from Off, with commands of version 1 between them.
NUMBERED = [
    # ShowStatus with the number that is expected first
    ("c50204000000000000000001", "5c020400000000000000000000000000000000000000000000000001"),
    # the same again: one too small
    ("c50204000000000000000001", "5c020410000000000000000200000000000000000000000000000001"),
    # one too large, and 0
    ("c50204000000000000000003", "5c020410000000000000000200000000000000000000000000000003"),
    ("c50204000000000000000000", "5c020410000000000000000200000000000000000000000000000000"),
    # version 1 between them
    ("c501040000000000", "5c0104000000000000000000000000000000000000000000"),
    # out of order before an unknown service, a service that isn't permitted and a bad body
    ("c5027e000000000000000003", "5c027e10000000000000000200000000000000000000000000000003"),
    ("c50207000000000000000003", "5c020710000000000000000200000000000000000000000000000003"),
    ("c50204000000000100000003ff", "5c020410000000000000000200000000000000000000000000000003"),
    # in order these are refused for their own reasons, and their numbers are taken
    ("c5027e000000000000000002", "5c027e01000000000000000000000000000000000000000000000002"),
    ("c50207000000000000000003", "5c020702000000000000000000000000000000000000000000000003"),
    ("c50204000000000100000004ff", "5c020403000000000000000000000000000000000000000000000004"),
    # PowerOn, version 1 and version 2 by turns
    ("c5020100000000040000000500000003", "5c020100010000000000000000000000000000000000000000000005"),
    ("c501040000000000", "5c0104000100000000000000000000030000000000000000"),
    ("c50204000000000000000006", "5c020400010000000000000000000003000000000000000000000006"),
    # Reset leaves the expected number, and so does one of version 1
    ("c50207000000000000000007", "5c020700010000000000000000000000000000000000000000000007"),
    ("c501070000000000", "5c0107000100000000000000000000000000000000000000"),
    ("c50204000000000000000001", "5c020410010000000000000800000000000000000000000000000001"),
    ("c50204000000000000000008", "5c020400010000000000000000000003000000000000000000000008"),
]

# From the second step on, over an image that has another digest.
CHANGED = [
    ("c501020000000000", "5c0102040700020000000000000000000000000000000000"),
    ("c50106000000000102", "5c0106020700020000000000000000000000000000000000"),
    ("c501020000000000", "5c0102020700020000000000000000000000000000000000"),
    ("c501040000000000", "5c0104000700020000000010000000030000000000000000"),
    ("c501070000000000", "5c0107000100000000000000000000000000000000000000"),
]

# The last step, where the noise ends, and where its first 31 bytes are equal.
NOISE_FAULT = [
    ("c501020000000000", "5c0102050700030000000000000000000000000000000000"),
    ("c50106000000000102", "5c0106020700030000000000000000000000000000000000"),
    ("c501040000000000", "5c0104000700030000004010000000030000000000000000"),
    ("c501070000000000", "5c0107000100000000000000000000000000000000000000"),
]

STUCK = [
    ("c501020000000000", "5c0102050700050000000000000000000000000000000000"),
    ("c50106000000000102", "5c0106020700050000000000000000000000000000000000"),
    ("c501040000000000", "5c0104000700050000004010000000030000000000000000"),
    ("c501070000000000", "5c0107000100000000000000000000000000000000000000"),
]

# The same HMAC of no bytes, and of 16,777,216 bytes 00.
EMPTY_DIGEST = b"d38b42096d80f45f826b44a9d5607de72496a415d3f4a1a8c88e3bb9da8dc1cb\n"
ZEROS_DIGEST = b"e7e5b3b173eaad5deb4c69c43c9501be552e11f55b87229d4d4e3d343877ed85\n"

USAGE = b"usage: serve, operate, digest, session, vectors, backup, restore or check\n"
BAD_FRAME = b"bad frame\n"
TRUNCATED = b"truncated frame\n"
READ_FAILED = b"read failed\n"
WRITE_FAILED = b"write failed\n"
FILE_FAILED = b"file failed\n"
IMAGE_TOO_LONG = b"image too long\n"
BAD_DIGEST = b"bad digest file\n"

PROGRAM, LAUNCHER = map(os.path.abspath, sys.argv[1:])
MANUAL = os.path.join(os.path.dirname(os.path.abspath(__file__)), "..", "docs", "INTERFACE.md")

# A folder with the files `image`, `digest` and `noise`, which has as many samples as two passes take.
ROOM = tempfile.TemporaryDirectory()


def in_room(name, content=None):
    """The path of a file there, which is written first where its content is given."""
    path = os.path.join(ROOM.name, name)
    if content is not None:
        with open(path, "wb") as file:
            file.write(content)
    return path


def serve_words(image="image", digest="digest", noise="noise"):
    return ["serve", in_room(image), in_room(digest), in_room(noise)]


class Wrong(Exception):
    """The program did something else than expected."""


def too_late(*_):
    raise Wrong(f"it did not come to an end within {SECONDS} seconds")


def shown(bytes_or_text):
    is_replies = isinstance(bytes_or_text, bytes) and bytes_or_text[:1] in (b"", b"\x5c")
    return bytes_or_text.hex() if is_replies else repr(bytes_or_text)


def expect(what, got, wanted):
    if got != wanted:
        raise Wrong(f"{what}: {shown(got)}\n    in place of {shown(wanted)}")


class Talk:
    """A run of the program with pipes to its standard input, output and error, and with a deadline."""

    def __init__(self, words=None, program=None, **how):
        pipes = {"stdin": subprocess.PIPE, "stdout": subprocess.PIPE, "stderr": subprocess.PIPE}
        asked = [program or PROGRAM, *(serve_words() if words is None else words)]
        self.ran = subprocess.Popen(asked, bufsize=0, **{**pipes, **how})

    def __enter__(self):
        signal.alarm(SECONDS)
        return self

    def __exit__(self, *_):
        signal.alarm(0)
        self.ran.kill()
        self.ran.wait()
        for it in (self.ran.stdin, self.ran.stdout, self.ran.stderr):
            if it:
                it.close()

    def send(self, digits):
        self.ran.stdin.write(bytes.fromhex(digits))

    def is_silent(self, seconds):
        """Whether no byte of a reply comes for so long."""
        return not select.select([self.ran.stdout], [], [], seconds)[0]

    def receive(self, count):
        """Reads so many bytes, or those that come before the output ends; standard input stays open."""
        got = b""
        while len(got) < count:
            piece = os.read(self.ran.stdout.fileno(), count - len(got))
            if not piece:
                break
            got += piece
        return got

    def ask(self, command, reply):
        """Sends a command, and expects its reply while standard input stays open."""
        self.send(command)
        header = self.receive(24)
        number = self.receive(4) if header[1:2] == b"\x02" else b""
        payload = self.receive(int.from_bytes(header[20:], "big"))
        expect(f"reply to {command}", header + number + payload, bytes.fromhex(reply))

    def close_output(self):
        self.ran.stdout.close()
        self.ran.stdout = None

    def ends(self, status, text, replies="", last=""):
        """Sends the last bytes, ends the input, and expects the rest of the output, the text and the status."""
        written, said = self.ran.communicate(bytes.fromhex(last) or None)
        if written is not None:
            expect("written", written, bytes.fromhex(replies))
        expect("standard error", said, text)
        expect("exit status", self.ran.returncode, status)

    def ends_by_itself(self, status, text, replies=""):
        """Expects the end of the output and of the program while standard input stays open."""
        expect("written", self.receive(1 << 20), bytes.fromhex(replies))
        self.ran.wait()
        self.ends(status, text)


def answers(commands, replies, status=0, text=b""):
    """The commands in one piece, and then the end of the input."""
    with Talk() as talk:
        talk.ends(status, text, replies, last=commands)


def one_after_the_other(*parts):
    """Each command once the reply to the one before it is there, and then the end of the input."""
    with Talk() as talk:
        for rows in parts:
            for command, reply in rows:
                talk.ask(command, reply)
        talk.ends(0, b"")


def one_frame_and_wait():
    with Talk() as talk:
        for command, reply in TALK:
            talk.ask(command, reply)
        if not talk.is_silent(0.1):
            raise Wrong("it wrote more than its replies")
        talk.ends(0, b"")


def one_byte_at_a_time():
    with Talk() as talk:
        for command, reply in TALK:
            for at in range(0, len(command) - 2, 2):
                talk.send(command[at : at + 2])
                time.sleep(0.002)
            if not talk.is_silent(0.05):
                raise Wrong(f"it answered before the last byte of {command}")
            talk.ask(command[-2:], reply)
        talk.ends(0, b"")


def in_two_pieces():
    for at in range(2, len(COMMANDS), 2):
        with Talk() as talk:
            talk.send(COMMANDS[:at])
            time.sleep(0.005)
            talk.send(COMMANDS[at:])
            talk.ends(0, b"", REPLIES)


def in_one_piece():
    answers("", "")
    answers(COMMANDS, REPLIES)
    answers(SHOW_STATUS, SHOWN_OFF)


def many_frames():
    answers(SHOW_STATUS * 20_000, SHOWN_OFF * 20_000)


def first_refusal_decides():
    one_after_the_other(FIRST_REFUSALS)


def tests_and_roles():
    one_after_the_other(TO_APPROVED, ROLES)


def entering():
    one_after_the_other(TO_APPROVED, ENTRY)


def committing():
    one_after_the_other(TO_APPROVED, COMMIT, USE)
    commands, replies = ("".join(parts) for parts in zip(*TO_APPROVED, *COMMIT, *USE))
    answers(commands, replies)


def numbered():
    one_after_the_other(NUMBERED)
    commands, replies = ("".join(parts) for parts in zip(*NUMBERED))
    answers(commands, replies)
    # each command in two pieces, cut at each byte
    for at in range(2, 24, 2):
        with Talk() as talk:
            for command, reply in NUMBERED:
                talk.send(command[:at])
                time.sleep(0.001)
                talk.send(command[at:])
                expect(f"reply to {command}", talk.receive(len(reply) // 2), bytes.fromhex(reply))
            talk.ends(0, b"")


def as_in_the_manual():
    """The rows of the manual's two dialogues: the first over noise for the one pass that comes to its end there."""
    with open(MANUAL, encoding="utf-8") as manual:
        first, keys = manual.read().split("\n## A dialogue with keys\n")
    for text, samples, least in ((first, PASS, 30), (keys, PASS + RESEED, 50)):
        rows = re.findall(r"^\| `(c5[0-9a-f]+)` \| `(5c[0-9a-f]+)`(?: and `([0-9a-f]+)`)? \|", text, re.MULTILINE)
        if len(rows) < least:
            raise Wrong(f"the manual shows {len(rows)} commands")
        in_room("once", bytes(k % 256 for k in range(samples)))
        with Talk(serve_words(noise="once")) as talk:
            for command, header, payload in rows:
                talk.ask(command, header + payload)
            talk.ends(0, b"")


def longest_body():
    answers("c501040000010040" + "00" * 65_600 + SHOW_STATUS, "5c0104030000000000000000000000000000000000000000" + SHOWN_OFF)


def bad_frames():
    wrong = [
        "00",
        "5c",
        "c4",
        "ff",
        "c500",
        "c503",
        "c5ff",
        "c5010101",
        "c5010480",
        "c501040000010041",  # a body of 65,601 bytes
        "c501040001000000",
        "c5010400ffffffff",
    ]
    for bytes_so_far in wrong:
        # as soon as the byte is there, with the input open
        with Talk() as talk:
            talk.send(bytes_so_far)
            talk.ends_by_itself(3, BAD_FRAME)
        with Talk() as talk:
            talk.send(POWER_ON_3 + SHOW_STATUS + bytes_so_far)
            talk.ends_by_itself(3, BAD_FRAME, POWERED_ON + SHOWN_3)
        # what comes after it is no command
        answers(SHOW_STATUS + bytes_so_far + SHOW_STATUS, SHOWN_OFF, 3, BAD_FRAME)


def truncated_frames():
    for at in range(2, len(POWER_ON_3), 2):
        answers(POWER_ON_3[:at], "", 4, TRUNCATED)
        answers(SHOW_STATUS * 2 + POWER_ON_3[:at], SHOWN_OFF * 2, 4, TRUNCATED)
    answers(COMMANDS + SHOW_STATUS[:-2], REPLIES, 4, TRUNCATED)
    answers("c501040000010040" + "00" * 65_599, "", 4, TRUNCATED)
    command, reply = NUMBERED[0]
    for at in range(2, len(command), 2):
        answers(command[:at], "", 4, TRUNCATED)
        answers(command + command[:at], reply, 4, TRUNCATED)


def other_words():
    serve = serve_words()
    wrong = [[], [""], ["serve"], serve[:2], serve[:3], serve + [serve[3]], ["Serve", *serve[1:]], ["serve ", *serve[1:]], ["serv", *serve[1:]]]
    wrong += [["digest"], ["digest", serve[1], serve[2]], ["Digest", serve[1]], ["--help"], ["-"], ["demo"], [b"\xff"], ["digest", b"\xff"]]
    files = serve[1:]
    wrong += [["operate"], ["operate", *files[:2]], ["operate", *files, files[2]], ["Operate", *files], ["vectors", ""], ["vectors", "-"], ["check", ""], ["check", "-"], ["try"]]
    seeds = ["", "-1", "+7", "07", "0x7", "7 ", "18446744073709551616", "99999999999999999999999", "seven"]
    wrong += [["session", "7", "0"], ["session", "7", *files], ["session", "7", "0", *files, "7"]]
    wrong += [["session", seed, "0", *files] for seed in seeds] + [["session", "7", count, *files] for count in (*seeds, "100001", "00")]
    for words in wrong:
        with Talk(words) as talk:
            talk.ends_by_itself(2, USAGE)


def other_files():
    in_room("empty", b"")
    in_room("short", DIGEST[:63])
    in_room("long", DIGEST + b"\n")
    in_room("other", DIGEST.replace(b"f", b"g"))
    os.truncate(in_room("large", b""), 16_777_216)
    os.truncate(in_room("larger", b""), 16_777_217)
    rows = [
        (serve_words(image="none"), 8, FILE_FAILED),
        (serve_words(image=""), 8, FILE_FAILED),
        (serve_words(image="larger", digest="none"), 9, IMAGE_TOO_LONG),
        (serve_words(digest="none"), 8, FILE_FAILED),
        (serve_words(digest=""), 8, FILE_FAILED),
        (serve_words(digest="empty"), 11, BAD_DIGEST),
        (serve_words(digest="short"), 11, BAD_DIGEST),
        (serve_words(digest="long"), 11, BAD_DIGEST),
        (serve_words(digest="other"), 11, BAD_DIGEST),
        (serve_words(digest="short", noise="none"), 11, BAD_DIGEST),
        (serve_words(noise="none"), 8, FILE_FAILED),
        (serve_words(noise=""), 8, FILE_FAILED),
        (["digest", in_room("none")], 8, FILE_FAILED),
        (["digest", in_room("larger")], 9, IMAGE_TOO_LONG),
        (["digest", "/dev/zero"], 9, IMAGE_TOO_LONG),
    ]
    for words, status, text in rows:
        with Talk(words) as talk:
            talk.ends_by_itself(status, text)
    # what is loaded is looked at in the second step alone
    for image in ("empty", "large"):
        with Talk(serve_words(image=image)) as talk:
            for command, reply in TALK:
                talk.ask(command, reply)
            talk.ends(0, b"")


def digests():
    for image, digits in [(IMAGE, DIGEST), (b"", EMPTY_DIGEST), (bytes(16_777_216), ZEROS_DIGEST)]:
        with Talk(["digest", in_room("digested", image)]) as talk:
            expect("digest", talk.receive(len(digits)), digits)
            talk.ends_by_itself(0, b"")
    # a file's digest as the program writes it serves it
    in_room("digested", bytes(range(256)))
    with open(in_room("written"), "wb") as written, Talk(["digest", in_room("digested")], stdout=written) as talk:
        talk.ends(0, b"")
    with Talk(serve_words("digested", "written")) as talk:
        for command, reply in TO_APPROVED:
            talk.ask(command, reply)
        talk.ends(0, b"")


def changed_image():
    with Talk(serve_words(image="changed")) as talk:
        for command, reply in TO_APPROVED[:-2] + CHANGED:
            talk.ask(command, reply)
        talk.ends(0, b"")


def noise_ends():
    # two passes find as many samples as they take, and a third finds none
    with Talk() as talk:
        for command, reply in TO_APPROVED + [(RESET, WAS_RESET)] + TO_APPROVED[1:] + [(RESET, WAS_RESET)] + TO_APPROVED[1:-1] + NOISE_FAULT:
            talk.ask(command, reply)
        talk.ends(0, b"")
    # one sample is missing
    in_room("less", bytes(k % 256 for k in range(PASS - 1)))
    with Talk(serve_words(noise="less")) as talk:
        for command, reply in TO_APPROVED[:-1] + NOISE_FAULT:
            talk.ask(command, reply)
        talk.ends(0, b"")


def noise_is_stuck():
    with Talk(serve_words(noise="zeros")) as talk:
        for command, reply in TO_APPROVED[:-1] + STUCK:
            talk.ask(command, reply)
        talk.ends(0, b"")


def noise_comes_late():
    os.mkfifo(in_room("late"))
    late = os.open(in_room("late"), os.O_RDWR | os.O_NONBLOCK)
    samples = bytes(k % 256 for k in range(PASS + 10))
    try:
        with Talk(serve_words(noise="late")) as talk:
            for command, reply in TO_APPROVED[:-1]:
                talk.ask(command, reply)
            os.write(late, samples[: PASS - 1])
            talk.send(TO_APPROVED[-1][0])
            if not talk.is_silent(0.2):
                raise Wrong("the last step was answered before its noise was there")
            os.write(late, samples[PASS - 1 :])
            expect("reply to the last step", talk.receive(24), bytes.fromhex(TO_APPROVED[-1][1]))
            talk.ends(0, b"")
        # no more was read than was asked for
        left = os.read(late, 100)
        if left != samples[PASS:]:
            raise Wrong(f"it left {left.hex()} of its noise")
    finally:
        os.close(late)


def noise_without_end():
    for device in ("/dev/random", "/dev/urandom"):
        if os.path.exists(device):
            with Talk(serve_words(noise=device)) as talk:
                for command, reply in TO_APPROVED + [(RESET, WAS_RESET)] + TO_APPROVED[1:]:
                    talk.ask(command, reply)
                talk.ends(0, b"")


def reader_gone():
    # with SIGPIPE as a shell leaves it, and ignored, as Python has it
    for restores in (True, False):
        with Talk(restore_signals=restores) as talk:
            talk.close_output()
            talk.send(SHOW_STATUS)
            talk.ends(6, WRITE_FAILED)
        with Talk(restore_signals=restores) as talk:
            talk.ask(POWER_ON_3, POWERED_ON)
            talk.close_output()
            talk.send(SHOW_STATUS)
            talk.ends(6, WRITE_FAILED)


def output_closed():
    with Talk(stdout=None, preexec_fn=lambda: os.close(1)) as talk:
        talk.send(SHOW_STATUS)
        talk.ends(6, WRITE_FAILED)


def output_full():
    if not os.path.exists("/dev/full"):
        print("client: no /dev/full here, so a full output is not tried")
        return
    with open("/dev/full", "wb") as full, Talk(stdout=full) as talk:
        talk.send(SHOW_STATUS)
        talk.ends(6, WRITE_FAILED)


def input_fails():
    folder = os.open("/", os.O_RDONLY)
    try:
        with Talk(stdin=folder) as talk:
            talk.ends(5, READ_FAILED)
    finally:
        os.close(folder)
    # where there is no standard input at all, the noise gets its number, and is read as commands
    with Talk(stdin=None, preexec_fn=lambda: os.close(0)) as talk:
        talk.ends(3, BAD_FRAME)


def through_the_launcher():
    # from another folder, by names that are relative to it
    here = {"program": LAUNCHER, "cwd": ROOM.name}
    with Talk(["serve", "image", "digest", "noise"], **here) as talk:
        for command, reply in TALK:
            talk.ask(command, reply)
        talk.send("00")
        talk.ends_by_itself(3, BAD_FRAME)
    with Talk(["digest", "image"], **here) as talk:
        expect("digest", talk.receive(len(DIGEST)), DIGEST)
        talk.ends_by_itself(0, b"")
    with Talk(["serve", "none", "digest", "noise"], **here) as talk:
        talk.ends_by_itself(8, FILE_FAILED)


CASES = [
    one_frame_and_wait,
    one_byte_at_a_time,
    in_two_pieces,
    in_one_piece,
    many_frames,
    first_refusal_decides,
    tests_and_roles,
    entering,
    committing,
    numbered,
    as_in_the_manual,
    longest_body,
    bad_frames,
    truncated_frames,
    other_words,
    other_files,
    digests,
    changed_image,
    noise_ends,
    noise_is_stuck,
    noise_comes_late,
    noise_without_end,
    reader_gone,
    output_closed,
    output_full,
    input_fails,
    through_the_launcher,
]


def main():
    # a write to a program that has ended is an error here, and not the end of this script
    signal.signal(signal.SIGPIPE, signal.SIG_IGN)
    signal.signal(signal.SIGALRM, too_late)
    in_room("image", IMAGE)
    in_room("changed", b"abd")
    in_room("digest", DIGEST)
    in_room("noise", bytes(k % 256 for k in range(2 * PASS)))
    in_room("zeros", bytes(PASS))
    failed = 0
    for case in CASES:
        try:
            case()
        except (Wrong, OSError) as error:
            failed += 1
            print(f"client: {case.__name__} FAILED: {error}")
    print(f"client: {len(CASES) - failed} passed, {failed} failed")
    return 1 if failed else 0


if __name__ == "__main__":
    sys.exit(main())

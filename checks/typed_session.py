"""Types lines to `operate` through a pseudo-terminal, as a person does, and asserts what is answered, when, and how it ends.

usage: typed_session.py PROGRAM LAUNCHER. The terminal echoes what is typed, as any does. Each line is answered before the next one is
typed, within a time limit. The longest dialogue is the manual's, whose replies checks/manual_lines.py wrote by a model.
"""
import fcntl
import os
import pty
import re
import select
import signal
import subprocess
import sys
import tempfile
import termios
import time

# A check that runs in the background may be given these as ignored, and whatever it starts would be too.
for heard in (signal.SIGINT, signal.SIGQUIT, signal.SIGTERM, signal.SIGHUP):
    signal.signal(heard, signal.SIG_DFL)

SECONDS = 20
# So long nothing comes where nothing is to come.
SILENCE = 0.2
END_OF_INPUT, INTERRUPT = b"\x04", b"\x03"

NO_BLOCK = "0" * 24
POWERED_ON, SHOWN = f"Ok Init 0 0000 {NO_BLOCK} -", f"Ok Off 0 0000 {NO_BLOCK} -"
VERSION = "Ok Off 0 0000 53594d4d4f442030312e3030 -"
# "abc", and its HMAC-SHA-256 under the key of the bytes 00 to 1f, by `openssl dgst -sha256 -mac HMAC`.
IMAGE, DIGEST = b"abc", b"f0133729c4163dede81e21cd47839256da58171238c8a0d874397c73b14e1e47\n"
PASS = 1408

PROGRAM, LAUNCHER = map(os.path.abspath, sys.argv[1:])
MANUAL = os.path.join(os.path.dirname(os.path.abspath(__file__)), "..", "docs", "INTERFACE.md")
ROOM = tempfile.TemporaryDirectory()


def in_room(name, content=None):
    """The path of a file there, which is written first where its content is given."""
    path = os.path.join(ROOM.name, name)
    if content is not None:
        with open(path, "wb") as file:
            file.write(content)
    return path


class Wrong(Exception):
    """The program did something else than expected."""


def expect(what, got, wanted):
    if got != wanted:
        raise Wrong(f"{what}: {got!r}\n    in place of {wanted!r}")


def operate_words(noise="noise"):
    return [PROGRAM, "operate", in_room("image"), in_room("digest"), in_room(noise)]


class Terminal:
    """A program at a terminal of its own, which stands for its input and output; what it tells on standard error comes by a pipe."""

    def __init__(self, words=None, echoes=True, stderr=subprocess.PIPE, **how):
        self.ours, theirs = pty.openpty()
        if not echoes:
            modes = termios.tcgetattr(theirs)
            modes[3] &= ~termios.ECHO
            termios.tcsetattr(theirs, termios.TCSANOW, modes)
        own = lambda: fcntl.ioctl(0, termios.TIOCSCTTY, 0)
        self.ran = subprocess.Popen(
            words or operate_words(), stdin=theirs, stdout=theirs, stderr=stderr, start_new_session=True, preexec_fn=own, **how
        )
        os.close(theirs)
        self.shown = b""

    def __enter__(self):
        return self

    def __exit__(self, *_):
        if self.ran.poll() is None:
            os.killpg(self.ran.pid, signal.SIGKILL)
        self.ran.wait()
        self.hang_up()
        if self.ran.stderr:
            self.ran.stderr.close()

    def hang_up(self):
        if self.ours is not None:
            os.close(self.ours)
        self.ours = None

    def press(self, keys):
        os.write(self.ours, keys)

    def more(self, seconds):
        """Whether something came to the screen within so long. A terminal that nobody has open any more fails to be read."""
        if not select.select([self.ours], [], [], seconds)[0]:
            return False
        try:
            piece = os.read(self.ours, 65_536)
        except OSError:
            return False
        self.shown += piece
        return piece != b""

    def line(self):
        """The next line on the screen."""
        until = time.monotonic() + SECONDS
        while b"\n" not in self.shown:
            if not self.more(max(0, until - time.monotonic())):
                raise Wrong(f"no line came, but {self.shown!r}")
        line, self.shown = self.shown.split(b"\n", 1)
        return line.rstrip(b"\r").decode("latin-1")

    def expect_silence(self):
        self.more(SILENCE)
        expect("nothing more", self.shown, b"")

    def type(self, line, reply=None):
        """Types a line, and expects its echo and the reply, or no reply for as long as one should have come in."""
        self.press(line.encode() + b"\n")
        expect("echo", self.line(), line)
        if reply is None:
            self.expect_silence()
        else:
            expect(f"reply to {line}", self.line(), reply)

    def expect_echo_only(self, typed):
        """What was typed shows, and nothing is answered yet."""
        while self.more(SILENCE):
            pass
        got, self.shown = re.sub(rb"\^D|\x08", b"", self.shown), b""
        expect("echo alone", got, typed.encode())

    def ends(self, status, text=b""):
        """Expects the end, with nothing more on the screen but the echo of what ended it."""
        try:
            got = self.ran.wait(SECONDS)
        except subprocess.TimeoutExpired:
            raise Wrong("it doesn't end") from None
        while self.more(SILENCE):
            pass
        expect("the rest of the screen", re.sub(rb"\^[CD]|\x08", b"", self.shown), b"")
        if self.ran.stderr:
            expect("standard error", self.ran.stderr.read(), text)
        expect("exit status", got, status)


def manual_rows():
    """The lines of the manual's dialogue, each with its reply or None."""
    with open(MANUAL, encoding="utf-8") as manual:
        dialogue = manual.read().split("\n## A dialogue in lines\n")[1].split("\n## ")[0]
    rows = re.findall(r"^\| `([^`]+)` \| (?:`([^`]+)`|none) \|", dialogue, re.MULTILINE)
    if len(rows) < 30:
        raise Wrong(f"the manual shows {len(rows)} lines")
    return [(line, reply or None) for line, reply in rows]


def as_in_the_manual():
    """Its last line is a bad one."""
    rows = manual_rows()
    with Terminal() as terminal:
        for line, reply in rows:
            terminal.type(line, reply)
        expect("the last reply", rows[-1][1], f"bad line {len(rows)}")
        terminal.ends(10, b"bad line\n")


def to_the_end():
    with Terminal() as terminal:
        terminal.expect_silence()
        terminal.type("status", SHOWN)
        terminal.type("", None)
        terminal.type("# a note", None)
        terminal.type("#status", None)
        terminal.type("poweron 0", POWERED_ON)
        terminal.press(END_OF_INPUT)
        terminal.ends(0)


def at_once_to_the_end():
    with Terminal() as terminal:
        terminal.press(END_OF_INPUT)
        terminal.ends(0)


def without_line_feed():
    """The first end of input hands out what is typed so far, the second ends it: so a last line without a line feed counts."""
    with Terminal() as terminal:
        terminal.press(b"version" + END_OF_INPUT)
        terminal.expect_echo_only("version")
        terminal.press(END_OF_INPUT)
        expect("reply to the last line", terminal.line(), VERSION)
        terminal.ends(0)


def in_two_goes():
    """A line of which the first part was handed out already."""
    with Terminal() as terminal:
        terminal.press(b"ver" + END_OF_INPUT)
        terminal.expect_echo_only("ver")
        terminal.press(b"sion\n")
        expect("echo", terminal.line(), "sion")
        expect("reply", terminal.line(), VERSION)
        terminal.press(END_OF_INPUT)
        terminal.ends(0)


def corrected():
    """What is rubbed out before the line is entered never comes to the program."""
    with Terminal() as terminal:
        terminal.press(b"statut\x7fs\n")
        terminal.line()
        expect("reply", terminal.line(), SHOWN)
        terminal.press(END_OF_INPUT)
        terminal.ends(0)


def typed_ahead():
    with Terminal(echoes=False) as terminal:
        terminal.press(b"status\nversion\npoweron 0\n")
        expect("replies in their order", [terminal.line() for _ in range(3)], [SHOWN, VERSION, POWERED_ON])
        terminal.press(END_OF_INPUT)
        terminal.ends(0)


BAD_LINES = (
    "frob", "status ", " status", "status 1", "Status", "slot 016", "slot 256", "role crypto", "bytes 4", "bytes 4g", "hash sha1 00",
    "status # a note",
)


def bad_lines():
    for line in BAD_LINES:
        with Terminal() as terminal:
            terminal.type("# lines count from 1, and comments too")
            terminal.type("status", SHOWN)
            terminal.type(line, "bad line 3")
            terminal.ends(10, b"bad line\n")


def refusals_go_on():
    with Terminal() as terminal:
        terminal.type("poweron 1000001", f"BadBody Off 0 0000 {NO_BLOCK} -")
        terminal.type("hash sha256 616263", f"NotInState Off 0 0000 {NO_BLOCK} -")
        terminal.type("poweron 1000000", POWERED_ON)
        terminal.press(END_OF_INPUT)
        terminal.ends(0)


def noise_ends():
    in_room("short", bytes(k % 256 for k in range(PASS - 1)))
    with Terminal(operate_words("short")) as terminal:
        for line in ("poweron 0", "tests", "step", "step"):
            terminal.type(line, f"Ok {'Init' if line == 'poweron 0' else 'SelfTest'} 0 0000 {NO_BLOCK} -")
        terminal.type("step", f"NoiseFault Error 0 0300 {NO_BLOCK} -")
        terminal.type("role user", f"NotInState Error 0 0300 {NO_BLOCK} -")
        terminal.press(END_OF_INPUT)
        terminal.ends(0)


def interrupted():
    with Terminal() as terminal:
        terminal.type("status", SHOWN)
        terminal.press(INTERRUPT)
        terminal.ends(-signal.SIGINT)


def longest_typed_line():
    """4,095 bytes are what a terminal lets through."""
    line = "# " + 4093 * "x"
    with Terminal() as terminal:
        terminal.type(line)
        terminal.type("status", SHOWN)
        terminal.press(END_OF_INPUT)
        terminal.ends(0)


def tried(end, status, ended=()):
    """A module of `try`, whose folder is gone however it ends."""
    tried_in = in_room("tried")
    os.makedirs(tried_in, exist_ok=True)
    with Terminal([LAUNCHER, "try"], stderr=subprocess.STDOUT, env={**os.environ, "TMPDIR": tried_in}) as terminal:
        while not terminal.line().startswith("and then what docs/INTERFACE.md"):
            pass
        expect("an empty line", terminal.line(), "")
        terminal.type("poweron 0", POWERED_ON)
        expect("folders while it runs", len(os.listdir(tried_in)), 1)
        end(terminal)
        for wanted in ended:
            expect("a line at the end", terminal.line()[: len(wanted)], wanted)
        terminal.ends(status)
    expect("folders that are left", os.listdir(tried_in), [])


def tried_to_the_end():
    tried(lambda terminal: terminal.press(END_OF_INPUT), 0)


def tried_to_a_bad_line():
    tried(lambda terminal: terminal.press(b"frob\n"), 10, ["frob", "bad line 2", "bad line", "warlinden: that line is no command"])


def tried_and_interrupted():
    tried(lambda terminal: terminal.press(INTERRUPT), -signal.SIGINT)


def tried_and_terminated():
    tried(lambda terminal: terminal.ran.terminate(), -signal.SIGTERM)


CASES = [
    to_the_end,
    at_once_to_the_end,
    without_line_feed,
    in_two_goes,
    corrected,
    typed_ahead,
    as_in_the_manual,
    bad_lines,
    refusals_go_on,
    noise_ends,
    interrupted,
    longest_typed_line,
    tried_to_the_end,
    tried_to_a_bad_line,
    tried_and_interrupted,
    tried_and_terminated,
]


def main():
    in_room("image", IMAGE)
    in_room("digest", DIGEST)
    in_room("noise", bytes(k % 256 for k in range(4096)))
    failed = 0
    for case in CASES:
        try:
            case()
        except (Wrong, OSError) as error:
            failed += 1
            print(f"typed_session: {case.__name__} FAILED: {error}")
    print(f"typed_session: {len(CASES) - failed} passed" + (f", {failed} failed" if failed else ""))
    return 1 if failed else 0


if __name__ == "__main__":
    sys.exit(main())

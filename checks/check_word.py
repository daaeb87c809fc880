"""Records dialogues with the program by examples/record.py, and compares what its `check` says of them, as they are and changed, with the
checker of transcripts.py.

usage: check_word.py PROGRAM LAUNCHER. Each talk with the program has a deadline.
"""
import os
import random
import signal
import subprocess
import sys
import tempfile

HERE = os.path.dirname(os.path.abspath(__file__))
TOP = os.path.join(HERE, "..")
sys.path[:0] = [os.path.join(TOP, "examples"), HERE]
from client import Algorithm, Domain, Kind, Module, Role, Service, State, Status, image_digest, parts_of_sealed
from machine_rules import pair_at
from transcripts import SHOWN, check, manual_transcript

SECONDS = 60
RECORD, CLIENT = (os.path.join(TOP, "examples", name) for name in ("record.py", "client.py"))
KEY = b"the key that nobody is to find.."
TEXTS = {0: b"", 3: b"bad frame\n", 4: b"truncated frame\n", 5: b"read failed\n", 6: b"write failed\n", 16: b"not lawful\n"}
CHUNK = 65_536
USAGE = b"usage: serve, operate, digest, session, vectors, backup, restore or check\n"
ROOM = tempfile.TemporaryDirectory()


class Wrong(Exception):
    """The program or the recorder did something else than expected."""


def too_late(*_):
    raise Wrong(f"it did not come to an end within {SECONDS} seconds")


def expect(what, got, wanted):
    if got != wanted:
        raise Wrong(f"{what}: {got!r}\n    in place of {wanted!r}")


def in_room(name, content=None):
    """The path of a file there, which is written first where its content is given."""
    path = os.path.join(ROOM.name, name)
    if content is not None:
        with open(path, "wb") as file:
            file.write(content)
    return path


def content(path):
    with open(path, "rb") as file:
        return file.read()


def serve_words():
    return [PROGRAM, "serve", in_room("image"), in_room("digest"), in_room("noise")]


def recording(name):
    return [sys.executable, "-B", RECORD, in_room(name), "--", *serve_words()]


def checked(transcript, words=("check",), program=None, **how):
    """What the program says of a transcript: its status, what it writes, and its text."""
    ran = subprocess.run([program or PROGRAM, *words], input=transcript, stdout=subprocess.PIPE, stderr=subprocess.PIPE, timeout=SECONDS, **how)
    return ran.returncode, ran.stdout, ran.stderr


def compare(what, transcript):
    """That the program says of a transcript what the checker says. The status."""
    status, written = check(transcript)
    expect(what, checked(transcript), (status, written, TEXTS[status]))
    return status


def need(reply, status=Status.Ok):
    expect(f"status of {Service(reply.service).name}", Status(reply.status), status)
    return reply.payload


def keep(module, slot, kind, exportable=False):
    need(module.enter(slot, kind, KEY, Domain.Approved, exportable, 99))


def use_keys(module):
    """The officer's services, and then the user's."""
    keep(module, 0, Kind.WrappingKey)
    keep(module, 1, Kind.AesKey, True)
    keep(module, 3, Kind.DerivationKey)
    need(module.enter(4, Kind.MacKey, KEY[:4], Domain.Approved, False, 9), Status.BadBody)
    need(module.generate(4, Kind.MacKey, 32))
    need(module.unwrap(0, 2, Kind.AesKey, need(module.wrap(0, 1)), False, 9))
    need(module.unwrap_pad(0, 5, Kind.AesKey, need(module.wrap_pad(0, 1)), False, 9))
    need(module.unwrap_pad(0, 5, Kind.AesKey, bytes(40), False, 9), Status.OccupiedSlot)
    need(module.derive(3, 6, Kind.MacKey, 32, b"label"))
    need(module.random(65_536))
    need(module.reseed(b"more"))
    need(module.select_role(Role.User))
    iv, text, tag = parts_of_sealed(need(module.seal(1, b"attack at dawn", b"to: all")))
    expect("opened", need(module.open(2, iv, text, tag, b"to: all")), b"attack at dawn")
    need(module.open(2, iv, text, tag[::-1], b"to: all"), Status.AuthFailed)
    need(module.seal_iv(1, iv, b"attack at dawn"), Status.WrongDomain)
    mac = need(module.mac(6, Algorithm.SHA384, 20, b"text"))
    need(module.mac_verify(6, Algorithm.SHA384, mac, b"text"))
    need(module.hash(Algorithm.SHA512, b"abc"))
    need(module.select_role(Role.Officer))
    need(module.show_slot(1))
    need(module.zeroise(4))
    need(module.zeroise_tree(0))
    need(module.zeroise_all())


def dialogue(name, is_numbered, period=0):
    """A dialogue by every service, by a client that waits for each reply. Its transcript."""
    with Module(recording(name), is_numbered) as module:
        need(module.select_role(Role.Officer), Status.NotInState)
        need(module.power_on(period))
        need(module.show_version())
        need(module.run_tests())
        need(module.select_role(Role.Officer))
        use_keys(module)
        need(module.enter(7, Kind.MacKey, bytes(0), Domain.Other), Status.BadBody)
        need(module.ask(Service.EntryBegin, bytes([7, Kind.MacKey, 0, 0, 0, 0, 0, 9, 40])))
        need(module.ask(Service.EntryBytes, KEY))
        need(module.ask(Service.EntryAbort))
        expect("status of no service", module.ask(0x7E, b"?").status, Status.UnknownService)
        need(module.reset())
        need(module.show_status())
        expect("the recorder's status", module.end(), 0)
    return content(in_room(name))


def starts_of(transcript):
    """Where pairs begin, and where replies do."""
    starts, at = [], 0
    while pair := pair_at(transcript, at):
        starts += [at, pair[0]]
        at = pair[1]
    return starts


def recorded(is_numbered):
    """A transcript of a dialogue is lawful, has no entered byte, and is told from changed ones as the checker tells them."""
    transcript = dialogue(f"dialogue_{is_numbered}", is_numbered)
    starts = starts_of(transcript)
    expect("verdict", checked(transcript), (0, b"lawful %d\n" % (len(starts) // 2), b""))
    expect("verdict by the launcher", checked(transcript, program=LAUNCHER)[:2], (0, b"lawful %d\n" % (len(starts) // 2)))
    if KEY[:8] in transcript or len(transcript) <= CHUNK:
        raise Wrong("entered bytes stand in the transcript, or it is too short")
    chosen, statuses = random.Random(7), set()
    for start in starts:
        # A byte of a head, some more often than others.
        place, value = start + chosen.choice((0, 1, 2, 3, 3, 4, 4, 5, 6, 7)), chosen.choice((0, 1, 2, 3, 4, 5, 16, 0x5C, 0xC5))
        changed = transcript[:place] + bytes([value]) + transcript[place + 1 :]
        statuses.add(compare(f"byte {place} set to {value}", changed))
        statuses.add(compare(f"cut before byte {place}", transcript[:place]))
    expect("statuses of changed transcripts", statuses, {0, 3, 4, 16})


def periods_end():
    """With a period of 1 each use makes tests due."""
    with Module(recording("periods")) as module:
        need(module.power_on(1))
        need(module.request_tests())
        for _ in range(2):
            while module.show_status().state == State.SelfTest:
                need(module.test_step())
            need(module.select_role(Role.User))
            need(module.hash(Algorithm.SHA256, b"abc"))
        expect("the recorder's status", module.end(), 0)
    transcript = content(in_room("periods"))
    expect("verdict", compare("a dialogue with periods", transcript), 0)
    # without the last step of the tests it isn't lawful any more
    starts = starts_of(transcript)
    expect("verdict", compare("without a step", transcript[: starts[-8]] + transcript[starts[-6] :]), 16)


def worked():
    """What is to be said of a worked transcript, whatever the checker says."""
    commands = ["c50101000000000400000000", "c501030000000000", *["c501020000000000"] * 3, "c501040000000000"]
    heads = ["010001", "030002", "020002", "020002", "020003", "040003"]
    blocks = ["00" * 14] * 5 + ["0000" "00004010" "0000000000000000"]
    woven = b"".join(bytes.fromhex(f"{c}5c01{h}00{b}" + "00" * 4) for c, h, b in zip(commands, heads, blocks))
    expect("length", len(woven), 196)
    for what, transcript, status, written in (
        ("worked", woven, 0, b"lawful 6\n"),
        ("none", b"", 0, b"lawful 0\n"),
        ("a state", woven[:144] + b"\4" + woven[145:], 16, b"pair 5\n"),
        ("half a pair", woven[:44], 4, b""),
        ("no reply", woven[:12] + b"\0" + woven[13:], 3, b""),
        ("unlawful, and cut", woven[36:80], 16, b"pair 1\n"),
        ("unlawful, and a bad frame", woven[36:68] + b"\0", 16, b"pair 1\n"),
        ("lawful, and a bad frame", woven + b"\0", 3, b""),
    ):
        expect(what, checked(transcript), (status, written, TEXTS[status]))


def reads_no_more():
    """The chunk with the first pair that isn't lawful is the last that is read, and the end of the input isn't waited for."""
    unlawful = bytes.fromhex("c501030000000000" "5c0103000200000000000000000000000000000000000000")
    whole = bytes.fromhex("c501040000000000" "5c0104000000000000000000000000000000000000000000")
    path = in_room("long", whole * 4_000 + unlawful + whole * 20_000)
    with open(path, "rb") as file:
        ran = subprocess.run([PROGRAM, "check"], stdin=file, stdout=subprocess.PIPE, stderr=subprocess.PIPE, timeout=SECONDS)
        expect("a long transcript", (ran.returncode, ran.stdout), (16, b"pair 4001\n"))
        read = os.lseek(file.fileno(), 0, os.SEEK_CUR)
    if read > (4_000 * len(whole) + len(unlawful) + CHUNK - 1) // CHUNK * CHUNK:
        raise Wrong(f"it read {read} bytes")
    with subprocess.Popen([PROGRAM, "check"], bufsize=0, stdin=subprocess.PIPE, stdout=subprocess.PIPE, stderr=subprocess.PIPE) as waiting:
        waiting.stdin.write(whole + unlawful)
        expect("while the input is open", (waiting.stdout.read(), waiting.wait(SECONDS)), (b"pair 2\n", 16))


def faults():
    """Reads and writes that fail, and words that are none."""
    folder = os.open(ROOM.name, os.O_RDONLY)
    ran = subprocess.run([PROGRAM, "check"], stdin=folder, stdout=subprocess.PIPE, stderr=subprocess.PIPE, timeout=SECONDS)
    os.close(folder)
    expect("a folder for input", (ran.returncode, ran.stdout, ran.stderr), (5, b"", TEXTS[5]))
    if os.path.exists("/dev/full"):
        with open("/dev/full", "wb") as full:
            ran = subprocess.run([PROGRAM, "check"], input=b"", stdout=full, stderr=subprocess.PIPE, timeout=SECONDS)
        expect("no room for output", (ran.returncode, ran.stderr), (6, TEXTS[6]))
    for words in (("check", "transcript"), ("Check",), ("checks",)):
        expect(f"words {words}", checked(b"", words), (2, b"", USAGE))


def recorder_ends_as_the_program():
    """Bad frames, commands without a reply, a program that isn't there or is killed, and a transcript that is there already."""
    def recorded_of(name, stream, words=None):
        command = recording(name) if words is None else [sys.executable, "-B", RECORD, in_room(name), "--", *words]
        ran = subprocess.run(command, input=stream, stdout=subprocess.PIPE, stderr=subprocess.PIPE, timeout=SECONDS)
        return ran.returncode, ran.stdout, ran.stderr

    status, replied = bytes.fromhex("c501040000000000"), bytes.fromhex("5c0104000000000000000000000000000000000000000000")
    expect("many at once", recorded_of("many", status * 5_000), (0, replied * 5_000, b""))
    expect("its transcript", content(in_room("many")), (status + replied) * 5_000)
    expect("a bad frame", recorded_of("bad", status + b"\0" + status), (3, replied, TEXTS[3]))
    expect("its transcript", content(in_room("bad")), status + replied)
    expect("a truncated frame", recorded_of("cut", status + status[:7]), (4, replied, TEXTS[4]))
    expect("its transcript", content(in_room("cut")), status + replied)
    expect("nothing", recorded_of("nothing", b""), (0, b"", b""))
    expect("a transcript that is there", recorded_of("nothing", b"")[0], 125)
    expect("no program", recorded_of("none", b"", [in_room("no_program")])[0], 127)
    expect("a signal", recorded_of("killed", b"", ["sh", "-c", "kill -9 $$"])[0], 137)
    expect("no replies", recorded_of("lines", status, ["sh", "-c", "head -c 8 >/dev/null; echo Ok; cat"])[0], 125)
    expect("its mode", os.stat(in_room("many")).st_mode & 0o777, 0o600)


def talks():
    """The client's own command through the recorder, as the manual has it."""
    words, lines = [sys.executable, "-B", CLIENT, "talk", "--", *recording("talked")], b"ShowStatus\nPowerOn 00000000\n"
    ran = subprocess.run(words, input=lines, stdout=subprocess.PIPE, timeout=SECONDS)
    expect("status", ran.returncode, 0)
    expect("verdict", checked(content(in_room("talked")))[:2], (0, b"lawful 2\n"))


def manual():
    """The dialogues of the manual are lawful, and its recorded one is told as it says, as it is and with byte 48 changed."""
    for heading in ("A dialogue", "A dialogue with keys"):
        pairs = manual_transcript(heading)
        expect(heading, checked(b"".join(map(b"".join, pairs)))[:2], (0, b"lawful %d\n" % len(pairs)))
    transcript = b"".join(map(b"".join, manual_transcript("Transcripts", SHOWN)))
    expect("Transcripts", checked(transcript), (0, b"lawful 3\n", b""))
    expect("Transcripts, changed", checked(transcript[:48] + b"\3" + transcript[49:]), (16, b"pair 2\n", TEXTS[16]))


PARTS = {
    "transcripts of the manual": manual,
    "worked transcripts": worked,
    "a recorded dialogue": lambda: recorded(False),
    "a recorded dialogue with numbers": lambda: recorded(True),
    "a recorded dialogue with periods": periods_end,
    "the client's command": talks,
    "no more is read than is needed": reads_no_more,
    "faults and words": faults,
    "the recorder's end": recorder_ends_as_the_program,
}


def main():
    signal.signal(signal.SIGALRM, too_late)
    in_room("image", b"abc")
    in_room("digest", image_digest(b"abc").encode())
    in_room("noise", bytes(k % 251 for k in range(40_000)))
    for name, part in PARTS.items():
        signal.alarm(SECONDS)
        try:
            part()
        except (Wrong, OSError, ValueError, subprocess.SubprocessError) as wrong:
            print(f"check_word: FAILED: {name}: {wrong}")
            return 1
        signal.alarm(0)
    print("check_word: passed")
    return 0


PROGRAM, LAUNCHER = map(os.path.abspath, sys.argv[1:])
if __name__ == "__main__":
    sys.exit(main())

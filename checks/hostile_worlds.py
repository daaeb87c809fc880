"""An independent model of a program to whose outside something happens: which bytes are written before a read, a write or a call on files
fails, and what the module answers where the noise or the engine is wrong. It is written from the manual and not from the sources, over the
models of the module (machine.py), of lines, sessions, vectors and transcripts.

`script` says what a run does, and `play` has it over an `Outside`, which then holds the bytes written and how many of the input are left.
"""
import re
from collections import namedtuple
from functools import lru_cache

import transcripts
from machine import (
    FAILED_SAMPLE,
    IMAGE_KEY,
    NOISE_ENDED,
    NOISE_FAILED,
    OUT_OF_PROPORTION,
    PROPORTION,
    REPEATED,
    REPETITION,
    WINDOW,
    Engine,
    Failed,
    Machine,
    fault,
)
from machine_backups import KEYS, LARGEST_BACKUP, BadBackup, backup_of, restored
from machine_bodies import State, Status
from machine_lines import BAD_DIGEST, BAD_LINE, BadLine, bad_line, command, digest_of, reply_line
from machine_rules import BadFrame, Public, pair_at
from machine_sessions import session, summary_of
from machine_vectors import passes
from machine_words import TO_OFFICER

USAGE, READ_FAILED, WRITE_FAILED, FILE_FAILED = 2, 5, 6, 8
BAD_FRAME, TRUNCATED, BAD_KEYS, NOT_OFFICER, BAD_BACKUP, NOT_LAWFUL = 3, 4, 13, 14, 15, 16
# The program asks for so many bytes at once.
CHUNK = 65_536

# A fault, the number that tells more of it, and its turn, counted from 1.
Wrong = namedtuple("Wrong", "fault other turn")
NOTHING_WRONG = Wrong(None, 0, 0)
READ, WRITE, FILE = "read", "write", "file"
NOISE = ENDS, FAILS, REPEATS, CROWDS = "noise_ends", "noise_fails", "noise_repeats", "noise_crowds"
CALLS = ("hash", "mac", "seal", "open", "wrap", "unwrap", "derive", "instantiate", "reseed", "generate")


def noise_of(wrong, noise):
    """The events of the noise."""
    before, behind = list(noise[: wrong.turn - 1]), list(noise[wrong.turn - 1 :])
    if wrong.fault in (ENDS, FAILS) and wrong.other:
        before[-wrong.other :] = [0] * len(before[-wrong.other :])
    if wrong.fault == ENDS:
        return before
    if wrong.fault == FAILS:
        return before + [FAILED_SAMPLE] * len(behind[:1]) + behind[1:]
    if wrong.fault == REPEATS:
        return before + [wrong.other] * len(behind[:REPETITION]) + behind[REPETITION:]
    if wrong.fault == CROWDS:
        many, stuck = divmod(wrong.other, 256)
        many = min(many, len(behind)) or len(behind)
        return before + [byte if at % REPETITION == REPETITION - 1 else stuck for at, byte in enumerate(behind[:many])] + behind[many:]
    return list(noise)


def engine_of(wrong):
    """An engine of which one call lies from a turn on, or none."""
    return Engine(CALLS.index(wrong.fault), wrong.turn - 1, wrong.other) if wrong.fault in CALLS else Engine()


# So many equal samples in a row.
STUCK = re.compile(rb"(.)\1{%d}" % (REPETITION - 1), re.DOTALL)


def crowded(window):
    """At which sample of a window its first one has come too often, or none."""
    places = [place for place, byte in enumerate(window, 1) if byte == window[0]]
    return places[PROPORTION - 1] if len(places) >= PROPORTION else None


def unhealthy(samples):
    """The number of the sample that first sets off a health test, and the error code; or none."""
    stuck = STUCK.search(samples)
    found = [(stuck.end(), REPEATED)] if stuck else []
    for start in range(0, len(samples), WINDOW):
        window = samples[start : start + WINDOW]
        if window.count(window[:1]) >= PROPORTION:
            found.append((start + crowded(window), OUT_OF_PROPORTION))
    return min(found, default=None)


class Watched(Machine):
    """A module that looks at its samples by the hundred, so that many runs take little time: `Machine` looks at each."""

    def forget(self):
        super().forget()
        self.seen = b""

    def take(self, count):
        """So many samples, each through the health tests."""
        events = self.noise[:count]
        whole = events.index(FAILED_SAMPLE) if FAILED_SAMPLE in events else len(events)
        before, self.seen = len(self.seen), self.seen + bytes(events[:whole])
        bad = unhealthy(self.seen)
        if bad:
            self.fail(bad[0] - before, bad[1])
        if whole < len(events):
            self.fail(whole + 1, NOISE_FAILED)
        if whole < count:
            self.fail(whole, NOISE_ENDED)
        self.noise = self.noise[count:]
        return bytes(events)

    def fail(self, taken, code):
        self.noise = self.noise[taken:]
        raise Failed(Status.NOISE_FAULT, code)


# What a run does: for each thing that it does and tells before its input ends, how many bytes have to come first, and the pieces that it
# writes then; how many have to come before it ends, or None where it ends as its input does, and what it does then; and what is written
# where a read fails, by how many things were done.
Script = namedtuple("Script", "doings need ending reads closing", defaults=(True, None))


@lru_cache(maxsize=None)
def frames_in(stream):
    """The frames at the front of a stream, each with the number of the byte that ends it; and how the bytes behind them end the run, with
    the number of the byte at which that shows."""
    found, at = [], 0
    while at < len(stream):
        shown = next((count for count in range(1, 9) if fault(stream[at : at + count])), None)
        if shown is not None:
            return found, at + shown, BAD_FRAME
        head = 12 if stream[at + 1 : at + 2] == b"\2" else 8
        end = at + head + int.from_bytes(stream[at + 4 : at + 8], "big")
        if len(stream) < at + head or len(stream) < end:
            return found, None, TRUNCATED
        number = int.from_bytes(stream[at + 8 : at + 12], "big") if head == 12 else None
        found.append((end, stream[at + 2], stream[at + head : end], number))
        at = end
    return found, None, 0


def pieces_of(reply):
    """A reply's header and its payload, which are written one after the other."""
    spelling = reply.spelling()
    cut = len(spelling) - len(reply.payload)
    return [spelling[:cut], spelling[cut:]]


def serve(machine, stream):
    frames, need, status = frames_in(stream)
    return Script([(end, pieces_of(machine.command(*frame))) for end, *frame in frames], need, (status, []))


def units_of(stream):
    """The lines of an input, each with the number of the line feed that ends it; the last line has none where the input just ends."""
    at = 0
    *lines, rest = stream.split(b"\n")
    for text in lines:
        at += len(text) + 1
        yield at, text
    if rest:
        yield None, rest


def operate(machine, stream):
    doings, last = [], []
    for number, (end, text) in enumerate(units_of(stream), 1):
        try:
            spelled = command(text)
        except BadLine:
            return Script(doings, end, (BAD_LINE, [bad_line(number)]))
        pieces = [reply_line(machine.command(*spelled))] if spelled else []
        if end is None:
            last = pieces
        else:
            doings.append((end, pieces))
    return Script(doings, None, (0, last))


def back_up(machine, stream, keys):
    """Lines whose replies nobody hears, and then the backup."""
    heard = operate(machine, stream)
    doings = [(end, []) for end, _ in heard.doings]
    if heard.ending[0] != 0:
        return heard._replace(doings=doings)
    if machine.state != State.OFFICER:
        return Script(doings, None, (NOT_OFFICER, []))
    return Script(doings, None, (0, [backup_of(machine.slots, keys)]))


def restore(machine, stream, keys, backup):
    for each in TO_OFFICER:
        machine.command(*command(each))
    if machine.state != State.OFFICER:
        return refused(NOT_OFFICER)
    try:
        machine.slots = restored(machine.slots, keys, backup)
    except BadBackup:
        return refused(BAD_BACKUP)
    return operate(machine, stream)


# The calls that a vector's check makes.
MADE = {
    **dict.fromkeys((b"sha256", b"sha384", b"sha512"), (0,)),
    **dict.fromkeys((b"hmac256", b"hmac384", b"hmac512"), (1,)),
    **dict.fromkeys((b"wrap", b"wrappad"), (4,)),
    **dict.fromkeys((b"unwrap", b"unwrappad"), (5,)),
    b"seal": (2,), b"open": (3,), b"derive": (6,), b"drbg": (7, 9),
}  # fmt: skip


def passes_by(engine, text):
    """Whether a line passes by this engine: a lie is no right answer, but a refusal is one where that is expected."""
    result = passes(text)
    if result is None:
        return None
    first, *words = text.split(b" ")
    if not any([engine.is_wrong(call) for call in MADE.get(first, ())]):
        return result
    return first in (b"open", b"unwrap", b"unwrappad") and words[-1] == b"fail"


def numbered(first, number, behind):
    """A number between two texts: three pieces."""
    return [first, b"%d" % number, behind]


def vectors(engine, stream):
    doings, tally, closing = [], (0, 0), [numbered(b"", 0, b" of ") + numbered(b"", 0, b"\n")]
    last = []
    for number, (end, text) in enumerate(units_of(stream), 1):
        try:
            result = passes_by(engine, text)
        except BadLine:
            return Script(doings, end, (BAD_LINE, numbered(b"bad line ", number, b"\n")), True, closing)
        pieces = [] if result is None else numbered(b"", number, b" pass\n" if result else b" fail\n")
        tally = tally[0] + (result is True), tally[1] + (result is not None)
        if end is None:
            last = pieces
        else:
            doings.append((end, pieces))
        closing.append(numbered(b"", tally[0], b" of ") + numbered(b"", tally[1], b"\n"))
    return Script(doings, None, (int(tally[0] < tally[1]), last + closing[-1]), True, closing)


def check(stream):
    pairs, at, public = 0, 0, Public()
    try:
        while pair := pair_at(stream, at):
            pairs, public = pairs + 1, transcripts.after_pair(public, stream, at, pair)
            if public is None:
                return Script([], pair[1], (NOT_LAWFUL, numbered(b"pair ", pairs, b"\n")))
            at = pair[1]
    except BadFrame as bad:
        return Script([], bad.shown + 1, (BAD_FRAME, []))
    return Script([], None, (0, numbered(b"lawful ", pairs, b"\n")) if at == len(stream) else (TRUNCATED, []))


def refused(status):
    return Script([], 0, (status, []), False)


# What a file has to be, and the status where it isn't.
FORMS = {
    "digest": (lambda content: digest_of(content) is not None, BAD_DIGEST),
    "keys": (lambda content: len(content) == KEYS, BAD_KEYS),
    "backup": (lambda content: len(content) <= LARGEST_BACKUP, BAD_BACKUP),
}


def fault_of_files(named, files, wrong):
    """The first status by which a file or the noise refuses a run, or none: they are looked at in this order."""
    for turn, (role, name) in enumerate(named.items(), 1):
        if name not in (files if role != "noise" else ("noise",)) or (wrong.fault == FILE and wrong.turn == turn):
            return FILE_FAILED
        holds, status = FORMS.get(role, (lambda content: True, None))
        if role != "noise" and not holds(files[name]):
            return status
    return None


def on_module(words, files, noise, wrong, stream):
    """What a run does whose words name an image, a digest and a noise."""
    first, *more, image, digest, source = words
    own = {"backup": ("keys",), "restore": ("keys", "backup")}.get(first, ())
    named = {"image": image, "digest": digest, **dict(zip(own, more)), "noise": source}
    status = fault_of_files(named, files, wrong)
    if status is not None:
        return refused(status)
    machine = Watched(files[image], digest_of(files[digest]), noise_of(wrong, noise), engine_of(wrong))
    if first == "session":
        return Script([], 0, (0, [summary_of(machine, session(int(words[1]), int(words[2])))]), False)
    return {"serve": serve, "operate": operate, "backup": back_up, "restore": restore}[first](machine, stream, *(files[name] for name in more))


def digest(words, files, wrong):
    if words[1] not in files or (wrong.fault == FILE and wrong.turn == 1):
        return refused(FILE_FAILED)
    mac = engine_of(wrong).mac(1, IMAGE_KEY, files[words[1]])
    return Script([], 0, (0, [mac.hex().encode() + b"\n"]), False)


def script(words, files, noise, wrong, stream):
    """What the words do where the noise, the engine or a call on files is wrong."""
    if words[0] not in ("serve", "operate", "session", "backup", "restore", "digest", "vectors", "check"):
        return refused(USAGE)
    if words[0] == "vectors":
        return vectors(engine_of(wrong), stream)
    if words[0] == "check":
        return check(stream)
    if words[0] == "digest":
        return digest(words, files, wrong)
    return on_module(words, files, noise, wrong, stream)


class ReadFault(Exception):
    pass


class WriteFault(Exception):
    pass


class Outside:
    """An input that comes so many bytes at a time, and an output that goes so many at a time, with the calls of them that fail."""

    def __init__(self, length, step, takes, bad_read=0, bad_write=0):
        self.left, self.step, self.takes, self.bad_read, self.bad_write = length, min(step, CHUNK), takes, bad_read, bad_write
        self.came = self.reads = self.writes = 0
        self.written = b""

    def read(self, times):
        """So many reads, or those before one that fails."""
        good = times if not self.reads < self.bad_read <= self.reads + times else self.bad_read - self.reads - 1
        count = min(good * self.step, self.left)
        self.left, self.came, self.reads = self.left - count, self.came + count, self.reads + good
        if good < times:
            raise ReadFault

    def read_to(self, need):
        """Until so many bytes came; or to the end, which the last read tells by giving nothing."""
        if need is None:
            self.read(-(-self.left // self.step) + 1)
        elif self.came < need:
            self.read(-(-(need - self.came) // self.step))

    def write(self, pieces):
        for piece in pieces:
            times = -(-len(piece) // self.takes)
            good = times if not self.writes < self.bad_write <= self.writes + times else self.bad_write - self.writes - 1
            self.written, self.writes = self.written + piece[: good * self.takes], self.writes + good
            if good < times:
                raise WriteFault


def play(does, outside):
    """The status of a run that does this."""
    done = 0
    try:
        try:
            for need, pieces in does.doings:
                outside.read_to(need)
                outside.write(pieces)
                done += 1
            if does.reads:
                outside.read_to(does.need)
            status, pieces = does.ending
        except ReadFault:
            status, pieces = READ_FAILED, does.closing[done] if does.closing else []
        outside.write(pieces)
    except WriteFault:
        return WRITE_FAILED
    return status


def outside_of(wrong, length, step, takes):
    bad = {READ: (wrong.turn, wrong.other), WRITE: (wrong.other, wrong.turn)}.get(wrong.fault, (0, 0))
    return Outside(length, step, takes, *bad)

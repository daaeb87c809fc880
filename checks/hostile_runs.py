#!/usr/bin/env python3
"""Writes the runs of hostile_program, in each of which one thing outside goes wrong, and what the model of hostile_worlds.py has them end
with.

    python3 checks/hostile_runs.py            writes crates/hostile_program/args, stdout and data/
    python3 checks/hostile_runs.py --check    compares them with what it would write
    python3 checks/hostile_runs.py --list     says how many runs each kind of fault has, and how they end

A line of args describes runs: what goes wrong, a number that tells more of it, the first turn at which it does, the last, by how much the
turns grow, how many bytes come at a time, how many go at a time, the name of the input, and the words of the runs. stdout has the same
line, and one for each run: the turn, the exit status, how many bytes were written, how many of the input are left, and the first eight
bytes of the SHA-256 of what was written.
"""
import hashlib
import sys
from collections import Counter, namedtuple
from functools import lru_cache

import stored_files
from hostile_inputs import BACKUP as KEPT
from hostile_inputs import INPUTS, TWO_KEYS
from hostile_worlds import CALLS, CROWDS, ENDS, FAILS, FILE, NOISE, NOTHING_WRONG, READ, REPEATS, WRITE, Wrong, outside_of, play, script
from line_parts import FILES, Surprise

Sweep = namedtuple("Sweep", "fault other first last by step takes input words")

CRATE = "hostile_program"
NAMED = {"image": FILES["image"], "digest": FILES["digest"], "keys": TWO_KEYS, "backup": KEPT}
EVENTS = FILES["noise"]
PARTS = ("image", "digest", "noise")
SERVE, OPERATE = ("serve", *PARTS), ("operate", *PARTS)
SESSION = ("session", "7", "9", *PARTS)
BACKUP, RESTORE = ("backup", "keys", *PARTS), ("restore", "keys", "backup", *PARTS)
VECTORS, CHECK, DIGEST = ("vectors",), ("check",), ("digest", "image")
# How many bytes come or go at a time where nothing depends on it, and where all come or go at once.
SOME, ALL = 61, 65_536
# The events that a run over all services takes: to come up, by two reseeds, and to come up again.
PASS, RESEED = 1_408, 256
FIRST, TAKEN = PASS + RESEED, 2 * PASS + 2 * RESEED


@lru_cache(maxsize=None)
def undisturbed(input, words):
    """What the words do where neither noise nor engine nor files are wrong."""
    return script(words, NAMED, EVENTS, NOTHING_WRONG, INPUTS[input])


def had(sweep, turn):
    """The status of the run in which this turn goes wrong, and the outside as it is left."""
    wrong = Wrong(sweep.fault, sweep.other, turn)
    calm = sweep.fault in (READ, WRITE)
    does = undisturbed(sweep.input, sweep.words) if calm else script(sweep.words, NAMED, EVENTS, wrong, INPUTS[sweep.input])
    outside = outside_of(wrong, len(INPUTS[sweep.input]), sweep.step, sweep.takes)
    return play(does, outside), outside


def calls(input, words, step, takes):
    """How many reads and how many writes a run makes on which none fails."""
    outside = outside_of(NOTHING_WRONG, len(INPUTS[input]), step, takes)
    play(undisturbed(input, words), outside)
    return outside.reads, outside.writes


def reads(input, words, step, by=1, takes=ALL, write=0):
    return Sweep(READ, write, 1, calls(input, words, step, takes)[0] + 1, by, step, takes, input, words)


def writes(input, words, takes, by=1, step=SOME, read=0):
    return Sweep(WRITE, read, 1, calls(input, words, step, takes)[1] + 1, by, step, takes, input, words)


def files(words, input="nothing"):
    """Each call on files fails, and behind the last one none."""
    return Sweep(FILE, 0, 1, 6, 1, ALL, ALL, input, words)


def noise(fault, other, first, last, by=1, input="frames", words=SERVE):
    return Sweep(fault, other, first, last, by, ALL, ALL, input, words)


def lies(call, bit, last=6, input="frames", words=SERVE):
    return Sweep(call, bit, 1, last, 1, ALL, ALL, input, words)


LONGER = ("kept", BACKUP), ("kept_by_nobody", BACKUP), ("lines_bad", BACKUP), ("restored", RESTORE), ("lines_bad", RESTORE)
SHORT = ("frames_bad", SERVE), ("lines_bad", OPERATE), ("vectors_bad", VECTORS), ("transcript_bad", CHECK), ("transcript_unlawful", CHECK)


def failing_reads():
    """Each read fails, and behind the last one none."""
    yield reads("frames", SERVE, 1, by=23)
    yield reads("frames", SERVE, 7)
    yield reads("transcript", CHECK, 7, by=5)
    for input, words in (("frames", SERVE), ("lines", OPERATE), ("vectors", VECTORS), ("transcript", CHECK)):
        yield reads(input, words, SOME)
        yield reads(input, words, 509)
        yield reads(input, words, ALL)
    for input, words in SHORT + LONGER + (("frames_cut", SERVE), ("transcript_cut", CHECK)):
        yield reads(input, words, 13)
        yield reads(input, words, ALL)
    for input, words in SHORT:
        yield reads(input, words, 1, by=11 if words == VECTORS else 1)
    # Nothing is read by these.
    for words in (SESSION, DIGEST, ("frob",)):
        yield Sweep(READ, 0, 1, 1, 1, ALL, ALL, "frames", words)


def failing_writes():
    """Each write fails, and behind the last one none."""
    for input, words in (("frames", SERVE), ("lines", OPERATE), ("vectors", VECTORS)):
        yield writes(input, words, 1, by=7)
        yield writes(input, words, 13)
        yield writes(input, words, ALL)
    for input, words in SHORT + LONGER + (("transcript", CHECK), ("nothing", SESSION), ("nothing", DIGEST), ("nothing", VECTORS), ("nothing", CHECK)):
        yield writes(input, words, 1)
        yield writes(input, words, 5)
        yield writes(input, words, ALL, step=ALL)


def failing_reads_and_writes():
    """Two calls fail. Over vectors the last line is written after a failed read, too."""
    for input, words in (("vectors", VECTORS), ("lines", OPERATE), ("frames", SERVE)):
        for write in (1, 30):
            yield reads(input, words, 251, write=write)
        for read in (2, 9):
            yield writes(input, words, ALL, step=251, read=read)


def failing_files():
    for words in (SERVE, OPERATE, SESSION, BACKUP, RESTORE, DIGEST, VECTORS, CHECK, ("frob",)):
        yield files(words)
    # The digest's file isn't one: that is told before the noise is looked at. And names that no file or noise has.
    for first in (("serve",), ("operate",), ("session", "7", "2")):
        for named in (("image", "image", "noise"), ("image", "digest", "image"), ("noise", "digest", "noise"), ("digest", "digest", "noise")):
            yield files((*first, *named), "frames" if first == ("serve",) else "lines")
    for more in (("backup", "image"), ("backup", "nothing"), ("restore", "image", "backup"), ("restore", "keys", "nothing"), ("restore", "keys", "image")):
        yield files((*more, *PARTS), "restored")
        yield files((*more, "image", "image", "nothing"), "restored")
    yield files(("digest", "noise"))


def wrong_noise():
    """Each event of the first pass and the first reseed; then some of those in which the second reseed and pass take theirs."""
    for fault, byte in ((ENDS, 0), (FAILS, 0), (REPEATS, 0), (CROWDS, 90)):
        yield noise(fault, byte, 1, FIRST, input="draws")
        yield noise(fault, byte, 1, TAKEN + 2, by=67)
        yield noise(fault, byte, 1, FIRST, by=131, input="lines", words=OPERATE)
        yield noise(fault, byte, 1, PASS + 2, by=131, input="nothing", words=SESSION)
        yield noise(fault, byte, 1, FIRST, by=61, input="kept", words=BACKUP)
        yield noise(fault, byte, 1, PASS + 2, by=61, input="restored", words=RESTORE)
    # So many equal samples before it that one more would be unhealthy, and that the last one is.
    for fault in (ENDS, FAILS):
        for zeros in (30, 31):
            yield noise(fault, zeros, 2, FIRST, by=43, input="draws")
    # A byte that stands before, so that 30 more are enough.
    yield noise(REPEATS, 255, 257, FIRST, by=256, input="draws")
    yield noise(CROWDS, 255, 1, PASS, by=13, input="draws")
    # Just so many in one window, and few enough behind it.
    yield noise(CROWDS, 400 * 256 + 90, 1, FIRST, by=11, input="draws")
    yield noise(CROWDS, 400 * 256 + 90, 440, 520, input="draws")


def lying_engines():
    for call in CALLS:
        for bit in (0, 7):
            yield lies(call, bit)
        yield lies(call, 3, input="lines", words=OPERATE)
        yield lies(call, 4, input="vectors", words=VECTORS)
        yield lies(call, 5, input="nothing", words=SESSION)
        yield lies(call, 6, input="kept", words=BACKUP)
        yield lies(call, 2, input="restored", words=RESTORE)
    yield lies("mac", 6, input="nothing", words=DIGEST)
    # The known answers and some MACs are right, and then check values are wrong, or the image's second test.
    yield lies("mac", 1, last=20)
    yield lies("generate", 2, last=16)


KINDS = (failing_reads, failing_writes, failing_reads_and_writes, failing_files, wrong_noise, lying_engines)


def turns(sweep):
    return range(sweep.first, sweep.last + 1, sweep.by)


def describe(sweep):
    *numbers, words = sweep
    return " ".join(map(str, (*numbers, *words)))


def is_part(sweep, turn, status, outside):
    """What any failed call leaves: the bytes of the undisturbed run's front, with less than all where a write failed."""
    calm = outside_of(NOTHING_WRONG, len(INPUTS[sweep.input]), sweep.step, sweep.takes)
    play(undisturbed(sweep.input, sweep.words), calm)
    if status == 6:
        return calm.written.startswith(outside.written) and outside.written != calm.written
    return sweep.words == VECTORS or calm.written.startswith(outside.written)


def told(sweep, turn):
    """The line of a run, and its status."""
    status, outside = had(sweep, turn)
    if sweep.fault in (READ, WRITE) and not sweep.other and not is_part(sweep, turn, status, outside):
        raise Surprise(f"{describe(sweep)}: turn {turn} leaves what no undisturbed run begins with")
    sum = hashlib.sha256(outside.written).hexdigest()[:16]
    return f"{turn} {status} {len(outside.written)} {outside.left} {sum}\n", status


def written():
    """The files of the program, by their names, and how often each kind of fault led to each status."""
    stored = {f"data/{name}": content for name, content in {**NAMED, "noise": EVENTS, **INPUTS}.items()}
    args, stdout, ends = "", "", Counter()
    for kind in KINDS:
        for sweep in kind():
            args += f"{describe(sweep)}\n"
            stdout += f"{describe(sweep)}\n"
            for turn in turns(sweep):
                line, status = told(sweep, turn)
                stdout += line
                ends[kind.__name__, status] += 1
    return {**stored, "args": args.encode(), "stdout": stdout.encode()}, ends


def main(words):
    stored, ends = written()
    if words == ["--list"]:
        for kind in KINDS:
            found = {status: count for (name, status), count in sorted(ends.items()) if name == kind.__name__}
            print(f"{kind.__name__:26} {sum(found.values()):6}   " + ", ".join(f"{status}: {count}" for status, count in found.items()))
        return 0
    return stored_files.main(words, CRATE, stored, "hostile_runs.py", f"{sum(ends.values())} runs")


if __name__ == "__main__":
    sys.exit(main(sys.argv[1:]))

#!/usr/bin/env python3
"""Gives the built program input that was changed at random, and looks at how it ends: a crash, a hang, a status or a text that the
manual doesn't have, or memory that grows is a failure. What it answers isn't looked at: second_opinion.py and others do that.

usage: fuzz.py PROGRAM [FIRST [COUNT]]

A number makes one input, for `serve`, `operate`, `vectors`, `check`, `backup` or `restore` by turns. It is a stored stream of
dialogue_program, line_program, transcript_program or backup_program of which bits are turned, or whose frames or lines are left out,
doubled and exchanged, or which is cut or joined to another one; or random bytes. For `restore` it is such lines behind a right backup, or
a stored backup that was changed likewise, and every second time is given the tag that fits its bytes. Statuses and texts are those of
the table in docs/INTERFACE.md, by the words that a row names.
Before its input is written a run may take no more address space than one that waits for its first byte has and a little, so a run that
takes memory later finds none, and ends with another status. (A child's peak as the system counts it would have that of Python.)

Each of these was tried, and inputs 1 to 60 told it: row 3 or row 10 left out of the table, the text of row 4 changed, and in the program's
place one that ends by a signal at a byte `ff`, and one that takes 1 MiB after its first bytes.
"""
import hashlib
import hmac
import os
import random
import re
import resource
import signal
import subprocess
import sys
import tempfile
import time
from concurrent.futures import ThreadPoolExecutor

HERE = os.path.dirname(os.path.abspath(__file__))
TOP = os.path.join(HERE, "..")
MANUAL = os.path.join(TOP, "docs", "INTERFACE.md")
DIALOGUES, LINES, TRANSCRIPTS, BACKUPS = (
    os.path.join(TOP, "crates", f"{name}_program", "data") for name in ("dialogue", "line", "transcript", "backup")
)
# A run may take so many seconds of a processor, and so many in all, since the machine may be busy.
SECONDS, PATIENCE = 10, 60
AT_A_TIME = 2
# The largest stream of the corpus: larger ones take long and are cut into the same frames.
LARGEST = 12_000
SEPARATOR = b"\x1e"
# The runs of `restore` whose input is the backup, and the lines that follow then.
OF_BACKUPS, FOLLOWING = "restore of a backup", b"slot 2\nstatus\n"
TAG = 32
# The statuses of `restore` that can't come where the image and the noise are right, and the backup or the lines are.
NEVER = {"restore": (14, 15), OF_BACKUPS: (10, 14)}
# What a run may take beside what it has as it waits for its first byte.
LITTLE = 64 * 1024


class Wrong(Exception):
    """A run ended as none may."""


def content(path):
    with open(path, "rb") as file:
        return file.read()


def table(word):
    """The texts that the manual has for the ends of a word whose files are right and whose input can be read, by their statuses."""
    texts = {}
    for status, text, when in re.findall(r"^\| (\d+) \| (?:`(.*?)`)? ?\| (.*) \|$", content(MANUAL).decode(), re.MULTILINE):
        words = [name for named in re.findall(r"((?:`\w+`, )*`\w+`):", when) for name in re.findall(r"\w+", named)]
        if word in words:
            texts[int(status)] = text.encode() + b"\n" if text else b""
    return texts


def frames(stream):
    """The frames of a stream, and what stands behind the last whole one."""
    cut = []
    while len(stream) >= 8:
        end = (12 if stream[1] == 2 else 8) + int.from_bytes(stream[4:8], "big")
        cut.append(stream[:end])
        stream = stream[end:]
    return cut + [stream]


def recorded(stream):
    """The frames of a transcript, each command's and its reply's, and what stands behind the last whole one."""
    cut = []
    while len(stream) >= 24:
        numbered = stream[1] == 2
        if len(cut) % 2:
            end = (28 if numbered else 24) + int.from_bytes(stream[20:24], "big")
        else:
            end = (12 if numbered else 8) + int.from_bytes(stream[4:8], "big")
        cut.append(stream[:end])
        stream = stream[end:]
    return cut + [stream]


def lines(stream):
    return stream.splitlines(keepends=True) or [b""]


def records(backup):
    """The front of a backup, its records, and what stands behind the last whole one."""
    cut, rest = [backup[:5]], backup[5:]
    while len(rest) >= 8 + TAG:
        end = 16 + (rest[7] + 7) // 8 * 8
        cut.append(rest[:end])
        rest = rest[end:]
    return cut + [rest]


def parted(stored):
    """The backups of a file, each of which stands behind its length in two bytes."""
    found = []
    while stored:
        end = 2 + int.from_bytes(stored[:2], "big")
        found.append(stored[2:end])
        stored = stored[end:]
    return found


def described(crate):
    """The words of each line that describes stored runs."""
    return [line.split(" ") for line in content(os.path.join(TOP, "crates", crate, "args")).decode().splitlines()]


def corpus(word):
    """The stored streams for a word: (what cuts them into parts, the streams)."""
    if word == OF_BACKUPS:
        names = dict.fromkeys(words[3] for words in described("backup_program") if words[1:2] == ["restore"] and len(words) > 3)
        paths = [os.path.join(BACKUPS, name) for name in names]
        return records, [backup for path in paths if os.path.exists(path) for backup in parted(content(path))]
    if word == "serve":
        cut, paths = frames, [os.path.join(DIALOGUES, words[0]) for words in described("dialogue_program")]
    elif word == "check":
        cut, paths = recorded, [os.path.join(TRANSCRIPTS, words[0]) for words in described("transcript_program")]
    else:
        crate, folder = ("backup_program", BACKUPS) if word in ("backup", "restore") else ("line_program", LINES)
        cut, paths = lines, [os.path.join(folder, words[0]) for words in described(crate) if words[1:2] == [word]]
    streams = [stream for path in dict.fromkeys(paths) for stream in (content(path).split(SEPARATOR) if cut == lines else [content(path)])]
    return cut, [stream for stream in streams if len(stream) <= LARGEST]


# Ways to change a stream. Each has the generator, the stream, what cuts it into parts, and another stream.


def bits(rng, stream, cut, other):
    changed = bytearray(stream)
    for _ in range(rng.choice((1, 1, 2, 8))):
        if changed:
            changed[rng.randrange(len(changed))] ^= 1 << rng.randrange(8)
    return bytes(changed)


def some_bytes(rng, stream, cut, other):
    at = rng.randrange(len(stream) + 1)
    return stream[:at] + rng.randbytes(rng.randint(1, 40)) + stream[at + rng.choice((0, 1, 20)) :]


def left_out(rng, stream, cut, other):
    parts = cut(stream)
    del parts[rng.randrange(len(parts))]
    return b"".join(parts)


def doubled(rng, stream, cut, other):
    parts = cut(stream)
    at = rng.randrange(len(parts))
    return b"".join(parts[: at + 1] + parts[at : at + 1] * rng.choice((1, 1, 5)) + parts[at + 1 :])


def exchanged(rng, stream, cut, other):
    parts = cut(stream)
    one, another = rng.randrange(len(parts)), rng.randrange(len(parts))
    parts[one], parts[another] = parts[another], parts[one]
    return b"".join(parts)


def cut_off(rng, stream, cut, other):
    return stream[: rng.randrange(len(stream) + 1)]


def crossed(rng, stream, cut, other):
    parts, others = cut(stream), cut(other)
    return b"".join(parts[: rng.randrange(len(parts) + 1)] + others[rng.randrange(len(others)) :])


CHANGES = (bits, bits, some_bytes, left_out, doubled, exchanged, cut_off, crossed)


def made(number, kinds):
    """The word and the input of a number."""
    rng = random.Random(number)
    word = list(kinds)[number % len(kinds)]
    cut, streams = kinds[word]
    if rng.random() < 0.05:
        return word, rng.randbytes(rng.randint(0, 300))
    stream = rng.choice(streams)
    for _ in range(rng.randint(1, 4)):
        stream = rng.choice(CHANGES)(rng, stream, cut, rng.choice(streams))
    return word, tagged(stream) if cut == records and rng.random() < 0.5 else stream


def tagged(backup):
    """With the tag of the bytes before it, under the second half of the keys."""
    mac = content(os.path.join(BACKUPS, "keys"))[32:]
    return backup[:-TAG] + hmac.new(mac, backup[:-TAG], hashlib.sha256).digest()


class Runner:
    def __init__(self, program):
        named = [os.path.join(DIALOGUES, name) for name in ("image", "digest", "noise")]
        self.words = {word: [program, word, *named] for word in ("serve", "operate")}
        self.words |= {word: [program, word] for word in ("vectors", "check")}
        keys, self.room = os.path.join(BACKUPS, "keys"), tempfile.TemporaryDirectory()
        right = self.in_room("right", parted(content(os.path.join(BACKUPS, "one_slot_kept")))[0])
        self.words |= {"backup": [program, "backup", keys, *named], "restore": [program, "restore", keys, right, *named]}
        self.words[OF_BACKUPS] = self.words["restore"]
        self.texts = {word: table(words[1]) for word, words in self.words.items()}
        for word, never in NEVER.items():
            self.texts[word] = {status: text for status, text in self.texts[word].items() if status not in never}
        self.most = {word: self.space(word) + LITTLE for word in self.words}

    def in_room(self, name, written):
        path = os.path.join(self.room.name, name)
        with open(path, "wb") as file:
            file.write(written)
        return path

    def begun(self, words, output):
        # Replies go to a file, so that nobody has to read them while the input is written.
        process = subprocess.Popen(words, stdin=subprocess.PIPE, stdout=output, stderr=subprocess.PIPE)
        resource.prlimit(process.pid, resource.RLIMIT_CPU, (SECONDS, SECONDS))
        return process

    def space(self, word):
        """The address space of a run that waits for its first byte."""
        with self.begun(self.words[word], subprocess.DEVNULL) as process:
            seen, still = 0, 0
            while still < 20:
                time.sleep(0.01)
                now = int(re.search(r"VmPeak:\s*(\d+) kB", content(f"/proc/{process.pid}/status").decode()).group(1)) * 1024
                still = still + 1 if now == seen and waits(process.pid) else 0
                seen = now
            process.stdin.close()
        return seen

    def run(self, word, stream, number):
        words = self.words[word]
        if word == OF_BACKUPS:
            words, stream = [*words[:3], self.in_room(str(number), stream), *words[4:]], FOLLOWING
        with tempfile.TemporaryFile() as output, self.begun(words, output) as process:
            resource.prlimit(process.pid, resource.RLIMIT_AS, (self.most[word], self.most[word]))
            try:
                _, text = process.communicate(stream, timeout=PATIENCE)
            except subprocess.TimeoutExpired:
                process.kill()
                raise Wrong(f"it doesn't end within {PATIENCE} seconds") from None
        status = process.returncode
        if status in (-signal.SIGXCPU, -signal.SIGKILL):
            raise Wrong(f"it takes more than {SECONDS} seconds of a processor")
        if status not in self.texts[word]:
            raise Wrong(f"it ends with {status}, and writes {text!r} to standard error")
        if text != self.texts[word][status]:
            raise Wrong(f"with status {status} it writes {text!r} to standard error")
        return status


def waits(pid):
    """Whether a process sleeps."""
    return content(f"/proc/{pid}/stat").rpartition(b")")[2].split()[0] == b"S"


def main(program, first=1, count=1_000):
    runner = Runner(program)
    kinds = {word: corpus(word) for word in runner.words}
    ends = {}

    def try_one(number):
        word, stream = made(number, kinds)
        try:
            return word, runner.run(word, stream, number)
        except Wrong as wrong:
            raise Wrong(f"input {number}, for {word}: {wrong}; python3 -B checks/fuzz.py {program} {number} 1") from None

    with ThreadPoolExecutor(AT_A_TIME) as pool:
        try:
            for end in pool.map(try_one, range(first, first + count)):
                ends[end] = ends.get(end, 0) + 1
        except Wrong as wrong:
            pool.shutdown(cancel_futures=True)
            print(f"fuzz: FAILED: {wrong}")
            return 1
    told = ", ".join(f"{word} {status}: {ends[word, status]}" for word, status in sorted(ends))
    print(f"fuzz: passed: {count} inputs, from {first} on; they ended as {told}")
    return 0


if __name__ == "__main__":
    sys.exit(main(sys.argv[1], *map(int, sys.argv[2:4])))

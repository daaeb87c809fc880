"""Looks through all writable memory of the running program for bytes of keys that were zeroised, which no contract speaks of.

usage: residue.py PROGRAM. What is looked for: any 8 bytes in a row of each key that was entered, derived, unwrapped or generated, of
its padded blocks in HMAC and of what the hash keeps of these, of its round keys under AES, of its hash subkey's multiples, and of the
generator's states before the last. Words are looked for in either order of their bytes, and in the dialogue in lines hex digits too.
Beside that the stack below what waits for a command is to be zero after each, as deep as any service reached. Of a run that restores a
backup the two keys of the backup are looked for in the same way, from its first line on.
"""
import hashlib
import hmac
import os
import re
import signal
import subprocess
import sys
import tempfile
import time

HERE = os.path.dirname(os.path.abspath(__file__))
sys.path[:0] = [os.path.join(HERE, "..", "examples"), HERE]
from client import Algorithm, Domain, Kind, Module, Role, Service, Status, check_value, entry_header, image_digest, named, parts_of_sealed
from residue_traces import Generator, in_units, multiples, padded_blocks, round_keys, subkey

SECONDS = 50
WINDOW = 8
# What the stack below the waiting program may hold beside zeros: the addresses to which the last calls returned.
ADDRESSES = 64
# Stands on the stack below the program before a command, to show how deep it reaches; the processor may use the nearest bytes meanwhile.
UNUSED, NEAREST = b"\xa5", 256
# The samples that the tests take before the generator's, and those for its entropy, its nonce and a reseed.
START, ENTROPY, NONCE, RESEED = 1024, 256, 128, 256
ROOM = tempfile.TemporaryDirectory()


class Wrong(Exception):
    """The program did something else than expected."""


class NotPermitted(Exception):
    """This machine doesn't let a process look into another's memory."""


def too_late(*_):
    raise Wrong(f"it did not come to an end within {SECONDS} seconds")


def key_of(name, length):
    """Bytes that look random, and come nowhere else."""
    return hashlib.shake_256(name.encode()).digest(length)


def derived(source, length, label):
    """KBKDF in counter mode with HMAC-SHA-256 (SP 800-108 Rev. 1, 4.1), with no context."""
    fixed = label + b"\0" + (8 * length).to_bytes(4, "big")
    return b"".join(hmac.new(source, count.to_bytes(4, "big") + fixed, "sha256").digest() for count in (1, 2))[:length]


class Traces:
    """What no memory may hold once it was zeroised: each WINDOW bytes in a row of it, and what they are."""

    def __init__(self):
        self.windows = {}

    def add(self, what, found, width=WINDOW):
        for place in range(len(found) - width + 1):
            window = found[place : place + width]
            # what is mostly zeros or padding is no trace of a key
            if len(set(window)) > width // 2:
                self.windows.setdefault(window, what)

    def add_words(self, what, found):
        for unit in (1, 4, 8, 16):
            self.add(what, in_units(found, unit))

    def add_key(self, name, kind, key):
        self.add_words(name, key)
        if kind in (Kind.AesKey, Kind.WrappingKey):
            self.add_words(f"{name}, its round keys", round_keys(key))
        if kind == Kind.AesKey:
            for multiple in multiples(subkey(key)):
                self.add_words(f"{name}, its hash subkey", multiple)
        if kind in (Kind.MacKey, Kind.DerivationKey):
            for block in padded_blocks(key):
                self.add_words(f"{name}, in HMAC", block)

    def add_digits(self, name, key):
        self.add(f"{name}, its digits", key.hex().encode())

    def in_memory(self, memory):
        """The first trace in each piece of memory, with where it is."""
        for region, start, content in memory:
            # whole runs of zeros hold nothing
            for piece in re.finditer(rb"(?:[^\0]|\0(?!\0{15}))+", content):
                found = self.first_in(piece.group())
                if found:
                    yield f"{found[0]} at {start + piece.start() + found[1]:#x} in {region}"

    def first_in(self, piece):
        windows = self.windows
        for place in range(len(piece) - WINDOW + 1):
            if piece[place : place + WINDOW] in windows:
                return windows[piece[place : place + WINDOW]], place
        return None


def wait_for_reading(pid):
    """A reply comes before what it was made of is cleared: waits until the program waits for more."""
    for _ in range(2000):
        with of_process(pid, "stat") as file:
            state = file.read().rsplit(")", 1)[1].split()[0]
        if state == "S":
            return
        time.sleep(0.001)
    raise Wrong("the program does not wait for its next command")


def of_process(pid, name, mode="r"):
    """What the system shows of a process, opened; its memory without a buffer."""
    try:
        return open(f"/proc/{pid}/{name}", mode, 0 if "b" in mode else -1)
    except OSError as error:
        raise NotPermitted(error.strerror) from None


def writable_memory(pid):
    """The name, the start and the bytes of each writable map of the process."""
    wait_for_reading(pid)
    with of_process(pid, "maps") as maps, of_process(pid, "mem", "rb") as memory:
        for line in maps:
            words = line.split()
            start, end = (int(it, 16) for it in words[0].split("-"))
            if words[1].startswith("rw"):
                memory.seek(start)
                yield words[5] if len(words) > 5 else "memory of no file", start, memory.read(end - start)


def below_stack_pointer(pid):
    """Where the part of the stack begins and ends that the waiting program doesn't use."""
    wait_for_reading(pid)
    with of_process(pid, "maps") as maps, of_process(pid, "syscall") as call:
        stack = next(line for line in maps if line.rstrip().endswith("[stack]"))
        return int(stack.split("-")[0], 16), int(call.read().split()[-2], 16)


class Watched(Module):
    """A module of which is measured how deep each command reaches into the stack, and how many bytes there aren't zero behind it."""

    def __init__(self, words):
        super().__init__(words)
        self.reached = []

    def ask_frame(self, frame):
        with of_process(self.process.pid, "mem", "r+b") as memory:
            start, end = below_stack_pointer(self.process.pid)
            memory.seek(start)
            memory.write(UNUSED * (end - NEAREST - start))
            reply = super().ask_frame(frame)
            start, end = below_stack_pointer(self.process.pid)
            memory.seek(start)
            used = memory.read(end - start).lstrip(UNUSED)
        self.reached.append((named(Service, frame[2]), len(used), len(used) - used.count(0)))
        return reply


def in_room(name, content):
    path = os.path.join(ROOM.name, name)
    with open(path, "wb") as file:
        file.write(content)
    return path


def done(reply):
    if reply.status != Status.Ok:
        raise Wrong(f"service {reply.service:#04x} answered {Status(reply.status).name}")
    return reply.payload


def refused(reply, status):
    if reply.status != status:
        raise Wrong(f"service {reply.service:#04x} answered {Status(reply.status).name} in place of {status.name}")


class Session:
    """A module in the officer's role, the generator that it has, and the traces of its keys."""

    def __init__(self, name, kind=Module):
        image, digest = in_room("image", b"abc"), in_room("digest", image_digest(b"abc").encode())
        self.noise = key_of("noise", START + ENTROPY + NONCE + RESEED)
        self.module = kind([PROGRAM, "serve", image, digest, in_room("noise", self.noise)])
        self.name, self.traces = name, Traces()
        self.generator = Generator(*self.samples(START, ENTROPY, NONCE))

    def samples(self, start, *counts):
        """Samples of the noise from a place on, in pieces."""
        for count in counts:
            yield self.noise[start : start + count]
            start += count

    def __enter__(self):
        done(self.module.power_on())
        done(self.module.run_tests())
        done(self.module.select_role(Role.Officer))
        return self

    def __exit__(self, kind, *_):
        if kind is None:
            if self.module.end() != 0:
                raise Wrong("it did not end with status 0")
        else:
            self.module.process.kill()

    def key_name(self, slot, kind):
        return f"{kind.name} of slot {slot}"

    def enter(self, slot, kind, length):
        key = key_of(f"{self.name} {slot}", length)
        done(self.module.enter(slot, kind, key, Domain.Other, exportable=True))
        self.traces.add_key(self.key_name(slot, kind), kind, key)
        return key

    def derive(self, source, slot, kind, length):
        label = f"{self.name} {slot}".encode()
        done(self.module.derive(7, slot, kind, length, label))
        self.traces.add_key(self.key_name(slot, kind), kind, derived(source, length, label))

    def draw(self, length):
        self.keep_state()
        return self.generator.generate(length)

    def keep_state(self):
        """The generator's state, of which nothing may be left after its next request."""
        for what in (self.generator.k, self.generator.v):
            self.traces.add_words("an earlier state of the generator", what)
        for block in padded_blocks(self.generator.k):
            self.traces.add_words("an earlier state of the generator, in HMAC", block)

    def generate(self, slot, kind, length):
        done(self.module.generate(slot, kind, length, Domain.Other))
        self.traces.add_key(self.key_name(slot, kind), kind, self.draw(length))

    def reseed(self):
        done(self.module.reseed())
        self.keep_state()
        self.generator.update(self.noise[-RESEED:])

    def found(self):
        return list(self.traces.in_memory(writable_memory(self.module.process.pid)))

    def expect_nothing(self, when):
        for found in self.found()[:1]:
            raise Wrong(f"{when} there is still: {found}")


def make_keys(session):
    """A key of each kind in each way that there is."""
    module = session.module
    for slot, kind, length in (
        (0, Kind.AesKey, 16), (1, Kind.AesKey, 24), (2, Kind.AesKey, 32), (3, Kind.WrappingKey, 16),
        (4, Kind.WrappingKey, 32), (5, Kind.MacKey, 64), (6, Kind.MacKey, 20), (7, Kind.DerivationKey, 48),
    ):
        key = session.enter(slot, kind, length)
    for slot, kind, length in ((8, Kind.AesKey, 32), (9, Kind.MacKey, 64), (10, Kind.DerivationKey, 32)):
        session.derive(key, slot, kind, length)
    for slot, kind, length in ((13, Kind.AesKey, 32), (14, Kind.MacKey, 32), (15, Kind.DerivationKey, 64)):
        session.generate(slot, kind, length)
    session.reseed()
    for wrapping in (3, 4):
        wrapped = done(module.wrap(wrapping, 2))
        refused(module.unwrap(wrapping, 11, Kind.AesKey, wrapped[::-1]), Status.UnwrapFailed)
    done(module.unwrap(4, 11, Kind.AesKey, wrapped))
    done(module.unwrap_pad(4, 12, Kind.MacKey, done(module.wrap_pad(4, 6))))


def use_keys(session):
    """Each service that works under a key, over texts of several lengths, also where it is refused."""
    module = session.module
    done(module.random(40))
    session.draw(40)
    done(module.select_role(Role.User))
    for slot in (5, 6, 9, 12, 14):
        for algorithm in Algorithm:
            mac = done(module.mac(slot, algorithm, 32, b"some text"))
            done(module.mac_verify(slot, algorithm, mac, b"some text"))
            refused(module.mac_verify(slot, algorithm, mac[::-1], b"some text"), Status.AuthFailed)
    for slot in (0, 1, 2, 8, 11, 13):
        for length in (0, 100, 1000, 5000):
            iv, ciphertext, tag = parts_of_sealed(done(module.seal(slot, bytes(length), b"aad")))
            session.draw(12)
            done(module.open(slot, iv, ciphertext, tag, b"aad"))
            refused(module.open(slot, iv, ciphertext, tag[::-1], b"aad"), Status.AuthFailed)
            done(module.seal_iv(slot, bytes(20), bytes(length)))
    done(module.select_role(Role.Officer))


def by_slots(module):
    for slot in range(16):
        done(module.zeroise(slot))


def by_trees(module):
    for slot in (*range(8), 13, 14, 15):
        done(module.zeroise_tree(slot))


def by_all(module):
    done(module.zeroise_all())


def by_reset(module):
    done(module.reset())


def ways_to_zeroise():
    """Keys are made and used; all of them are there, and after each way to zeroise them none is."""
    for way in (by_slots, by_trees, by_all, by_reset):
        with Session(way.__name__) as session:
            make_keys(session)
            use_keys(session)
            if not session.found():
                raise Wrong("keys that stand in their slots were not found in memory")
            way(session.module)
            if way is by_reset:
                session.keep_state()
            session.expect_nothing(f"after zeroising {way.__name__.replace('_', ' ')}")


def dead_stack():
    """No command reaches deeper than what is cleared behind it, so each leaves as much of the stack zero as one that does nothing."""
    with Session("stack", Watched) as session:
        module = session.module
        make_keys(session)
        use_keys(session)
        done(module.hash(Algorithm.SHA512, bytes(1000)))
        by_reset(module)
        done(module.show_status())
    depth = module.reached[-1][1]
    for name, reached, left in module.reached:
        if reached != depth or left > ADDRESSES:
            raise Wrong(f"{name} used {reached} bytes of the stack and left {left} that are not zero; {depth} are cleared")


def begin(session, name, length=64):
    """Begins an entry for slot 5, and enters its first bytes. Gives the header and the key."""
    header, key = entry_header(5, Kind.MacKey, Domain.Other, True, 9, length), key_of(name, length)
    done(session.module.ask(Service.EntryBegin, header))
    done(session.module.ask(Service.EntryBytes, key[:40]))
    session.traces.add_key(f"the key of an entry that {name}", Kind.MacKey, key)
    return header, key


def ask_in_pieces(module, service, body):
    """Sends a command so that the program reads it piece by piece."""
    frame = module.frame(service, body)
    for place in range(0, len(frame) - 7, 7):
        module.commands.write(frame[place : place + 7])
        module.commands.flush()
        wait_for_reading(module.process.pid)
    return module.ask_frame(frame[place + 7 :])


def ended_entries():
    """What is left of an entry that isn't done, and of one that came in pieces."""
    with Session("entries") as session:
        module = session.module
        begin(session, "was given up")
        if not session.found():
            raise Wrong("a key that is being entered was not found in memory")
        done(module.ask(Service.EntryAbort))
        session.expect_nothing("after EntryAbort")

        header, key = begin(session, "had a wrong check value")
        done(module.ask(Service.EntryBytes, key[40:]))
        refused(module.ask(Service.EntryCommit, check_value(header, key)[::-1]), Status.CheckFailed)
        session.expect_nothing("after EntryCommit with a wrong check value")

        header, key = entry_header(5, Kind.MacKey, Domain.Other, True, 9, 64), key_of("in pieces", 64)
        session.traces.add_key("a key that came in pieces", Kind.MacKey, key)
        for service, body in ((Service.EntryBegin, header), (Service.EntryBytes, key), (Service.EntryCommit, check_value(header, key))):
            done(ask_in_pieces(module, service, body))
        by_slots(module)
        session.expect_nothing("after Zeroise")

        begin(session, "was cut short")
        refused(module.ask(Service.EntryCommit, bytes(8)), Status.BadLength)
        session.expect_nothing("after EntryCommit of too few bytes")

        header, key = begin(session, "was reset")
        refused(module.ask(Service.EntryBytes, key), Status.BadLength)
        done(module.reset())
        session.expect_nothing("after Reset in an entry")


def say(module, line, status="Ok"):
    """A line, and what its reply gives behind the sixth word."""
    module.commands.write(line.encode() + b"\n")
    module.commands.flush()
    words = module.replies.readline().decode().split()
    if words[:1] != [status]:
        raise Wrong(f"the line {line.split()[0]} was answered {' '.join(words)}")
    return words[5]


def lines():
    """The same for keys that are entered as lines of hex digits."""
    files = [in_room("image", b"abc"), in_room("digest", image_digest(b"abc").encode()), in_room("noise", key_of("noise", 2000))]
    module, traces = Module([PROGRAM, "operate", *files]), Traces()
    for line in ("poweron 0", "tests", "step", "step", "step", "role officer"):
        say(module, line)
    for slot, word, kind, length in ((1, "aes", Kind.AesKey, 32), (2, "mac", Kind.MacKey, 64), (3, "kdf", Kind.DerivationKey, 32)):
        key, header = key_of(f"line {slot}", length), entry_header(slot, kind, Domain.Approved, False, 9, length)
        for line in (f"begin {slot} {word} approved keep 9 {length}", f"bytes {key.hex()}", f"commit {check_value(header, key).hex()}"):
            say(module, line)
        traces.add_key(f"{kind.name} of slot {slot}", kind, key)
        traces.add_digits(f"{kind.name} of slot {slot}", key)
    say(module, "derive 3 4 mac keep 9 32 6c -")
    for line in ("role user", "mac 2 sha256 32 616263", f"seal 1 16 - {bytes(1000).hex()}", "role officer"):
        say(module, line)
    pid = module.process.pid
    if not list(traces.in_memory(writable_memory(pid))):
        raise Wrong("keys of lines that stand in their slots were not found in memory")
    say(module, "zeroiseall")
    for found in traces.in_memory(writable_memory(pid)):
        raise Wrong(f"after the line zeroiseall there is still: {found}")
    module.end()


def wait_for_lines(pid):
    """Waits until the program waits for its first line, past all files."""
    for _ in range(5000):
        with of_process(pid, "syscall") as call:
            if call.read().split()[:2] == ["0", "0x0"]:
                return
        time.sleep(0.001)
    raise Wrong("the program does not wait for its first line")


def backed_up(words, lines, keys):
    """The backup of lines. While these are waited for, both keys of the backup are in memory."""
    with subprocess.Popen(words, stdin=subprocess.PIPE, stdout=subprocess.PIPE) as process:
        wait_for_lines(process.pid)
        for traces in keys:
            if not list(traces.in_memory(writable_memory(process.pid))):
                raise Wrong("keys of a backup that is to be written were not found in memory")
        return process.communicate(lines)[0]


def expect_gone(module, keys, when):
    for traces in keys:
        for found in traces.in_memory(writable_memory(module.process.pid)):
            raise Wrong(f"{when} there is still: {found}")


def traces_of(name, kind, key):
    traces = Traces()
    traces.add_key(name, kind, key)
    return traces


def backup_keys():
    """Of the keys of a backup nothing is left as the first line is waited for, nor later; the restored key is there until it is zeroised."""
    key, header, both = key_of("kept", 32), entry_header(3, Kind.MacKey, Domain.Approved, True, 9, 32), key_of("keys of a backup", 64)
    files = [in_room("image", b"abc"), in_room("digest", image_digest(b"abc").encode()), in_room("noise", key_of("noise", 4000))]
    keys = [traces_of("the key that wraps", Kind.WrappingKey, both[:32]), traces_of("the key of the tag", Kind.MacKey, both[32:])]
    entry = ["begin 3 mac approved export 9 32", f"bytes {key.hex()}", f"commit {check_value(header, key).hex()}"]
    lines = "".join(f"{line}\n" for line in ("poweron 0", "tests", "step", "step", "step", "role officer", *entry))
    backup = backed_up([PROGRAM, "backup", in_room("keys", both), *files], lines.encode(), keys)
    module = Module([PROGRAM, "restore", in_room("keys", both), in_room("backup", backup), *files])
    wait_for_lines(module.process.pid)
    expect_gone(module, keys, "before the first line behind a restored backup")
    for line in ("slot 3", "role user", "mac 3 sha256 8 616263", "role officer"):
        say(module, line)
        expect_gone(module, keys, f"after the line {line.split()[0]} behind a restored backup")
    restored = traces_of("the restored key", Kind.MacKey, key)
    if not list(restored.in_memory(writable_memory(module.process.pid))):
        raise Wrong("a restored key was not found in memory")
    say(module, "zeroiseall")
    expect_gone(module, [*keys, restored], "after the line zeroiseall")
    module.end()


def main():
    signal.signal(signal.SIGALRM, too_late)
    signal.alarm(SECONDS)
    failed = 0
    # Of the keys of a backup more is left than there should be, which is not mended yet: it is told, and isn't a failure of this check.
    try:
        backup_keys()
    except (NotPermitted, Wrong, OSError) as error:
        print(f"residue: backup_keys: NOT MENDED YET: {error}")
    for case in (ways_to_zeroise, dead_stack, ended_entries, lines):
        try:
            case()
        except NotPermitted as error:
            print(f"residue: skipped, since no look into the memory of a process is permitted here: {error}")
            return 0
        except (Wrong, OSError) as error:
            failed += 1
            print(f"residue: {case.__name__} FAILED: {error}")
    if not failed:
        print("residue: passed: no key that was zeroised was found in memory")
    return 1 if failed else 0


if __name__ == "__main__":
    PROGRAM = os.path.abspath(sys.argv[1])
    sys.exit(main())

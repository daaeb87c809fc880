"""Backs up keys by the built program, reads the backups by tools/read_backup.py, restores them, and compares.

usage: backup_words.py PROGRAM LAUNCHER. Keys are random, and so is the noise. Each talk with the program has a deadline.
"""
import hashlib
import hmac
import importlib.util
import os
import random
import re
import signal
import subprocess
import sys
import tempfile

HERE = os.path.dirname(os.path.abspath(__file__))
TOP = os.path.join(HERE, "..")
sys.path[:0] = [os.path.join(TOP, "examples"), HERE]
from client import image_digest

SECONDS = 60
READER = os.path.join(TOP, "tools", "read_backup.py")
STORED = os.path.join(TOP, "crates", "backup_program")
MANUAL = os.path.join(TOP, "docs", "INTERFACE.md")
HEADING, PROMPT = "### The bytes of a backup", "$ "
TEXTS = {
    0: b"",
    2: b"usage: serve, operate, digest, session, vectors, backup, restore or check\n",
    5: b"read failed\n",
    6: b"write failed\n",
    8: b"file failed\n",
    10: b"bad line\n",
    11: b"bad digest file\n",
    13: b"bad key file\n",
    14: b"not officer\n",
    15: b"bad backup\n",
}
NO_BLOCK = "0" * 24
START = ["poweron 0", "tests", "step", "step", "step", "role officer"]
KINDS = {"aes": "AES key", "kek": "wrapping key", "mac": "MAC key", "kdf": "derivation key"}
NUMBERS = {"aes": 1, "kek": 2, "mac": 3, "kdf": 4}
DOMAINS = {"other": "Other", "approved": "Approved"}
RANDOM_RUNS = 60
# The number of slots, and where a backup tells how many are kept.
SLOTS, COUNT_AT = 16, 4
ROOM = tempfile.TemporaryDirectory()


class Wrong(Exception):
    """The program or the reader did something else than expected."""


def too_late(*_):
    raise Wrong(f"it did not come to an end within {SECONDS} seconds")


def expect(what, got, wanted):
    if got != wanted:
        raise Wrong(f"{what}: {got!r}\n    in place of {wanted!r}")


def in_room(name, content=None):
    """The path of a file there, which is written first where its content is given."""
    path = os.path.join(ROOM.name, name)
    if content is not None:
        with open(path, "wb") as file:
            file.write(content)
    return path


def content(path):
    with open(path, "rb") as file:
        return file.read()


def module_files(noise="/dev/urandom"):
    return [in_room("image"), in_room("digest"), noise]


def backup_words(keys="keys"):
    return ["backup", in_room(keys), *module_files()]


def restore_words(kept, keys="keys"):
    return ["restore", in_room(keys), in_room(kept), *module_files()]


def joined(lines):
    return "".join(f"{line}\n" for line in lines).encode()


def ended(words, stream=b"", program=None, **how):
    """The status of a run, and what it wrote; its text has to be that of the status."""
    how.setdefault("stdout", subprocess.PIPE)
    given = {} if "stdin" in how else {"input": stream}
    ran = subprocess.run([program or PROGRAM, *words], stderr=subprocess.PIPE, timeout=SECONDS, **given, **how)
    expect(f"the text of {words[0]} with status {ran.returncode}", ran.stderr, TEXTS.get(ran.returncode))
    return ran.returncode, ran.stdout


def backed_up(lines, name, keys="keys"):
    """Writes the backup of lines to a file, and answers it."""
    status, backup = ended(backup_words(keys), joined(lines))
    expect(f"status of the backup {name}", status, 0)
    in_room(name, backup)
    return backup


def restored(kept, lines, keys="keys"):
    """The replies to lines, each in its six words, after a backup was restored."""
    status, replies = ended(restore_words(kept, keys), joined(lines))
    expect(f"status of what restores {kept}", status, 0)
    found = [reply.split(" ") for reply in replies.decode().splitlines()]
    expect(f"the number of replies after {kept}", len(found), len(lines))
    return found


def refused(what, words, status, written=b"", stream=joined(["status"]), **how):
    expect(what, ended(words, stream, **how), (status, written))


def told(name, *options, keys="keys"):
    """What the reader tells of a backup: its status, its lines, and its text."""
    words = [sys.executable, "-B", READER, *options, in_room(keys), in_room(name)]
    ran = subprocess.run(words, stdout=subprocess.PIPE, stderr=subprocess.PIPE, timeout=SECONDS)
    return ran.returncode, ran.stdout.decode().splitlines(), ran.stderr.decode()


def right(name, *options, keys="keys"):
    """The lines that the reader tells of a backup that is right, but for the first."""
    status, lines, text = told(name, *options, keys=keys)
    expect(f"what the reader says of {name}", (status, text), (0, ""))
    expect("its first line", lines[:1], [f"a backup of {len(content(in_room(name))):,} bytes, slots kept: {len(lines) - 1}"])
    return lines[1:]


class Kept:
    """A key that is kept: its slot, kind, domain, uses left, and its bytes where they were entered."""

    def __init__(self, slot, kind, domain, uses, length, key=None):
        self.slot, self.kind, self.domain, self.uses, self.length, self.key = slot, kind, domain, uses, length, key

    def entering(self, export="export"):
        """The lines that enter it."""
        header = bytes([self.slot, NUMBERS[self.kind], list(DOMAINS).index(self.domain), int(export == "export")])
        header += self.uses.to_bytes(4, "big") + bytes([self.length])
        check = hmac.new(self.key, header, hashlib.sha256).hexdigest()[:16]
        begin = f"begin {self.slot} {self.kind} {self.domain} {export} {self.uses} {self.length}"
        return [begin, f"bytes {self.key.hex()}", f"commit {check}"]

    def in_words(self):
        return f"slot {self.slot}: {KINDS[self.kind]} of {self.length} bytes, domain {DOMAINS[self.domain]}, uses left: {self.uses}"

    def block(self):
        return f"01{NUMBERS[self.kind]:02x}{list(DOMAINS).index(self.domain):02x}01{self.length:02x}000000{self.uses:08x}"


def entered(slot, kind, domain, uses, length):
    return Kept(slot, kind, domain, uses, length, os.urandom(length))


def keys_of_each_origin():
    """Keys that were entered, generated, derived and unwrapped, beside some that may not leave and some that are spent, and the lines to them."""
    kek, mac = entered(0, "kek", "other", 9, 32), entered(1, "mac", "other", 3, 11)
    stay, spent = entered(8, "aes", "other", 9, 32), entered(9, "mac", "other", 1, 20)
    kdf, aes = entered(2, "kdf", "other", 2**32 - 1, 64), entered(3, "aes", "approved", 8, 24)
    lines = [*START, *kek.entering(), *mac.entering(), *kdf.entering(), *aes.entering(), *stay.entering("keep"), *spent.entering()]
    lines += ["generate 4 aes approved export 77 32", "generate 5 mac other export 6 33", "generate 10 mac other keep 6 33"]
    lines += ["derive 2 6 mac export 5 40 6c6162656c -", "derive 2 11 mac keep 5 40 6c6162656c -", "generate 15 kek approved export 1 16"]
    lines += ["role user", "mac 1 sha256 32 616263", "mac 9 sha256 32 616263", "mac 9 sha256 32 616263", "role officer"]
    kek.uses, mac.uses, kdf.uses = 9, 2, 2**32 - 3
    derived = Kept(6, "mac", "other", 5, 40, kdf_of(kdf.key, b"label", 40))
    generated = [Kept(4, "aes", "approved", 77, 32), Kept(5, "mac", "other", 6, 33)]
    return lines, [kek, mac, kdf, aes, *generated, derived, Kept(15, "kek", "approved", 1, 16)]


def kdf_of(key, label, length):
    """Counter mode with HMAC-SHA-256 (SP 800-108 Rev. 1, 4.1), without a context."""
    fixed = label + b"\0" + (8 * length).to_bytes(4, "big")
    return b"".join(hmac.new(key, count.to_bytes(4, "big") + fixed, hashlib.sha256).digest() for count in (1, 2, 3))[:length]


def bytes_of_keys(name, wanted):
    """The key of each slot, as the reader tells it; those that are known are compared."""
    lines, found = right(name, "--with-keys"), {}
    expect("the records in words", right(name), [kept.in_words() for kept in wanted])
    for line, kept in zip(lines, wanted):
        found[kept.slot] = bytes.fromhex(line.rpartition(", ")[2])
        expect(f"the length of the key of slot {kept.slot}", len(found[kept.slot]), kept.length)
        if kept.key is not None:
            expect(f"the key of slot {kept.slot}", found[kept.slot], kept.key)
    return found


def uses_keys(found, name):
    """That restored keys are those that the reader tells: each gives what Python's hmac and cryptography give under it."""
    from cryptography.hazmat.primitives.ciphers.aead import AESGCM
    from cryptography.hazmat.primitives.keywrap import aes_key_unwrap_with_padding

    iv, aad, text = os.urandom(12), b"to: all", b"attack at dawn"
    sealed = AESGCM(found[4]).encrypt(iv, text, aad)
    lines = ["wrappad 0 1", "derive 2 7 mac export 9 32 6d6f7265 -", "role user", "mac 5 sha512 64 616263", "mac 7 sha256 32 616263"]
    lines += [f"open 4 {iv.hex()} {aad.hex()} {sealed[:-16].hex()} {sealed[-16:].hex()}", "seal 3 16 - 616263"]
    replies = restored(name, lines)
    expect("statuses under restored keys", [reply[0] for reply in replies], ["Ok"] * len(lines))
    payloads = [bytes.fromhex(reply[5].replace("-", "")) for reply in replies]
    expect("what is unwrapped", aes_key_unwrap_with_padding(found[0], payloads[0]), found[1])
    expect("the MAC under slot 5", payloads[3], hmac.new(found[5], b"abc", hashlib.sha512).digest())
    expect("the MAC under a key that was derived from slot 2", payloads[4], hmac.new(kdf_of(found[2], b"more", 32), b"abc", hashlib.sha256).digest())
    expect("the opened text", payloads[5], text)
    expect("what was sealed", AESGCM(found[3]).decrypt(payloads[6][:12], payloads[6][12:], b""), b"abc")


def kept_and_restored():
    """Keys of each origin through a backup; what was restored is what was kept, and nothing else."""
    lines, wanted = keys_of_each_origin()
    backup = backed_up(lines, "origins")
    expect("how many slots are kept", backup[COUNT_AT], len(wanted))
    found = bytes_of_keys("origins", wanted)
    blocks = {kept.slot: kept.block() for kept in wanted}
    for slot, reply in enumerate(restored("origins", [f"slot {slot}" for slot in range(SLOTS)])):
        expect(f"slot {slot}", reply, ["Ok", "Officer", "0", "0000", blocks.get(slot, NO_BLOCK), "-"])
    uses_keys(found, "origins")


def run_anew():
    """The same lines again: entered keys are the same, and generated ones others. Of no generated key the backup is the same."""
    lines, wanted = keys_of_each_origin()
    first, again = (bytes_of_keys(name, wanted) for name in ("first", "again") if backed_up(lines, name))
    drawn = [kept.slot for kept in wanted if kept.key is None]
    expect("the keys that differ", [slot for slot in first if first[slot] != again[slot]], drawn)
    expect("a backup of an entered key, twice", *(backed_up([*START, *wanted[1].entering()], name) for name in ("once", "twice")))


def between_runs():
    """What one restored module sealed another one opens; each has the uses that the backup tells."""
    backed_up([*START, "generate 3 aes approved export 2 32"], "shared")
    sealed = bytes.fromhex(restored("shared", ["role user", "seal 3 16 - 616263", "slot 3"])[1][5])
    opening = f"open 3 {sealed[:12].hex()} - {sealed[12:-16].hex()} {sealed[-16:].hex()}"
    replies = restored("shared", ["role user", opening, opening, opening])
    expect("the text, opened elsewhere", [(reply[0], reply[5]) for reply in replies[1:]], [("Ok", "616263")] * 2 + [("Spent", "-")])


def full():
    """Sixteen random keys of 64 bytes."""
    wanted = [entered(slot, "mac" if slot % 2 else "kdf", "approved", slot + 1, 64) for slot in range(SLOTS)]
    backup = backed_up([*START, *(line for kept in wanted for line in kept.entering())], "full")
    expect("the length of the longest backup", len(backup), 1_317)
    bytes_of_keys("full", wanted)
    replies = restored("full", [f"slot {slot}" for slot in range(SLOTS)])
    expect("sixteen slots", [reply[4] for reply in replies], [kept.block() for kept in wanted])
    in_room("longer", backup + b"\0")
    refused("a byte more", restore_words("longer"), 15)


def changed():
    """A backup of random keys of which a bit is turned, which is cut, or which is under other keys: program and reader refuse it."""
    backup = backed_up([*START, *entered(2, "mac", "other", 7, 20).entering(), "generate 9 aes approved export 7 32"], "good")
    expect("the number of records", backup[COUNT_AT], 2)
    for place in (*range(0, len(backup), 5), len(backup) - 1):
        in_room("changed", backup[:place] + bytes([backup[place] ^ 1 << place % 8]) + backup[place + 1 :])
        refused(f"byte {place} is changed", restore_words("changed"), 15)
        expect(f"what the reader says where byte {place} is changed", told("changed")[:2], (1, []))
    for end in (0, 1, 36, 37, len(backup) - 1):
        in_room("changed", backup[:end])
        refused(f"cut behind {end} bytes", restore_words("changed"), 15)
        expect(f"what the reader says behind {end} bytes", told("changed")[:2], (1, []))
    in_room("other_keys", os.urandom(64))
    refused("under other keys", restore_words("good", "other_keys"), 15)
    expect("what the reader says under other keys", told("good", keys="other_keys")[:2], (1, []))


def key_files():
    """Files of keys that haven't 64 bytes, aren't there, or come through a pipe."""
    backed_up([*START, "generate 9 aes approved export 7 32"], "kept")
    for length in (0, 1, 32, 63, 65, 128, 1_000_000):
        in_room("wrong_keys", bytes(length))
        refused(f"keys of {length} bytes", backup_words("wrong_keys"), 13)
        refused(f"keys of {length} bytes, restoring", restore_words("kept", "wrong_keys"), 13)
        expect(f"what the reader says of {length} bytes", told("kept", keys="wrong_keys")[:2], (2, []))
    refused("no keys", backup_words("none"), 8)
    refused("no keys, restoring", restore_words("kept", "none"), 8)
    refused("a folder of keys", ["backup", ROOM.name, *module_files()], 8)
    refused("no backup", restore_words("none"), 8)
    refused("a folder for a backup", ["restore", in_room("keys"), ROOM.name, *module_files()], 8)
    refused("keys without end", ["backup", "/dev/zero", *module_files()], 13)
    refused("a backup without end", ["restore", in_room("keys"), "/dev/zero", *module_files()], 15)
    through_pipes()


def through_pipes():
    """Keys and backup as a shell's `<(..)` hands them over."""
    ends = [os.pipe(), os.pipe()]
    for (_, written), name in zip(ends, ("keys", "kept")):
        os.write(written, content(in_room(name)))
        os.close(written)
    read = [end for end, _ in ends]
    words = ["restore", *(f"/dev/fd/{end}" for end in read), *module_files()]
    status, replies = ended(words, b"slot 9\n", pass_fds=read)
    for end in read:
        os.close(end)
    expect("keys and backup through pipes", (status, replies.decode().split()[4:5]), (0, ["010101012000000000000007"]))


def ends():
    """The other statuses; with those that come before the lines nothing of the input is read."""
    backed_up([*START], "kept")
    refused("no line", backup_words(), 14, stream=b"")
    refused("as user", backup_words(), 14, stream=joined([*START, "role user"]))
    refused("a bad line", backup_words(), 10, b"bad line 7\n", stream=joined([*START, "frob", "frob"]))
    refused("a bad line behind a backup", restore_words("kept"), 10, b"bad line 1\n", stream=joined(["frob"]))
    stuck = ["restore", in_room("keys"), in_room("kept"), *module_files("/dev/zero")]
    refused("noise that is stuck", stuck, 14)
    refused("noise that ends", [*stuck[:-1], in_room("digest")], 14)
    refused("noise that is stuck, backing up", ["backup", in_room("keys"), *module_files("/dev/zero")], 14, stream=joined(START))
    refused("a word more", [*backup_words(), "more"], 2)
    refused("a word less", restore_words("kept")[:-1], 2)
    refused("by the launcher", restore_words("kept"), 0, f"Ok Officer 0 0000 {NO_BLOCK} -\n".encode(), stream=b"slot 2\n", program=LAUNCHER)
    lines = in_room("lines", joined(["status"] * 9))
    for words, status in ((stuck, 14), (restore_words("lines"), 15), (restore_words("kept", "lines"), 13), (backup_words("lines"), 13)):
        with open(lines, "rb") as file:
            refused("before the lines", words, status, stdin=file)
            expect(f"what was read of the lines with status {status}", os.lseek(file.fileno(), 0, os.SEEK_CUR), 0)


def faults():
    """Reads and writes that fail."""
    folder = os.open(ROOM.name, os.O_RDONLY)
    refused("a folder for lines", backup_words(), 5, stdin=folder)
    refused("a folder for lines behind a backup", restore_words("kept"), 5, stdin=folder)
    os.close(folder)
    reader, writer = os.pipe()
    os.close(reader)
    expect("a backup that nobody reads", ended(backup_words(), joined(START), stdout=writer)[0], 6)
    os.close(writer)
    if os.path.exists("/dev/full"):
        with open("/dev/full", "wb") as full:
            expect("no room for a backup", ended(backup_words(), joined(START), stdout=full)[0], 6)
            expect("no room for a bad line", ended(backup_words(), b"frob\n", stdout=full)[0], 6)
            expect("no room for a reply", ended(restore_words("kept"), b"status\n", stdout=full)[0], 6)


def answers_at_once():
    """A client that waits for each reply gets it, and nothing before it asks."""
    with subprocess.Popen([PROGRAM, *restore_words("origins")], bufsize=0, stdin=subprocess.PIPE, stdout=subprocess.PIPE) as waiting:
        for line, status in (("slot 1", "Ok"), ("role user", "Ok"), ("mac 1 sha256 8 -", "Ok"), ("seal 8 16 - -", "EmptySlot")):
            waiting.stdin.write(joined([line]))
            reply = b""
            while not reply.endswith(b"\n"):
                reply += waiting.stdout.read(1)
            expect(f"the reply to {line}", reply.split(b" ")[0].decode(), status)
        waiting.stdin.close()
        expect("what is written behind the last reply", (waiting.stdout.read(), waiting.wait(SECONDS)), (b"", 0))


def random_entry(rng):
    kind, domain = rng.choice(list(KINDS)), rng.choice(list(DOMAINS))
    length = rng.choice((16, 24, 32)) if kind in ("aes", "kek") else rng.randint(14 if domain == "approved" else 1, 64)
    kept = Kept(rng.randrange(SLOTS), kind, domain, rng.randint(1, 3), length, rng.randbytes(length))
    return kept.entering(rng.choice(("export", "export", "keep")))


def random_lines(rng):
    """Lines of an officer and a user, most of which fit what the slots may hold."""
    kind, domain, export = rng.choice(list(KINDS)), rng.choice(list(DOMAINS)), rng.choice(("export", "keep"))
    slot, other, uses, length = rng.randrange(SLOTS), rng.randrange(SLOTS), rng.randint(1, 3), rng.choice((16, 24, 32))
    return rng.choice((
        random_entry(rng), random_entry(rng), random_entry(rng), ["role officer"], ["role officer"], ["role user"], [f"slot {slot}"],
        [f"generate {slot} {kind} {domain} {export} {uses} {length}"], [f"derive {slot} {other} {kind} {export} {uses} {length} 6c -"],
        [f"zeroise {slot}"], [f"zeroisetree {slot}"], [f"wrappad {slot} {other}"], ["role user", f"mac {slot} sha256 8 616263", "role officer"],
        ["role user", f"seal {slot} 16 - 616263", "role officer"], ["tests", "step", "step", "step"], ["reseed -"], ["status"],
    ))


def random_runs():
    """Random lines are backed up, and random lines follow what was restored, as a model has it that shares nothing with the sources."""
    from machine_words import run

    names = [in_room("image"), in_room("digest"), in_room("much_noise", bytes(k * k // 7 % 256 for k in range(40_000)))]
    keys, kept_name = in_room("keys"), in_room("random_backup")
    for seed in range(RANDOM_RUNS):
        rng = random.Random(seed)
        lines = [line for _ in range(rng.randint(0, 25)) for line in random_lines(rng)]
        stream = joined(START + lines + (["role officer"] if rng.random() < 0.9 else []))
        files = {path: content(path) for path in (*names, keys)}
        backing = ["backup", keys, *names]
        expect(f"the random backup {seed}", ended(backing, stream), run(backing, files, stream))
        status, files[kept_name] = run(backing, files, stream)
        in_room("random_backup", files[kept_name])
        restoring = ["restore", keys, kept_name, *names]
        stream = joined([f"slot {slot}" for slot in range(SLOTS)] + [line for _ in range(9) for line in random_lines(rng)])
        expect(f"what follows the random backup {seed}, which has the status {status}", ended(restoring, stream), run(restoring, files, stream))


def parted(stored):
    """The backups of a stored file, each of which stands behind its length in two bytes."""
    while stored:
        end = 2 + int.from_bytes(stored[:2], "big")
        yield stored[2:end]
        stored = stored[end:]


def reader_agrees():
    """The reader says of each stored backup whether it is right as the stored runs of backup_program have it."""
    spec = importlib.util.spec_from_file_location("read_backup", READER)
    reader = importlib.util.module_from_spec(spec)
    spec.loader.exec_module(reader)
    rows = re.findall(rb"^slot_2 restore (\w+) (\w+) image digest noise (0|15)$", content(os.path.join(STORED, "stdout")), re.MULTILINE)
    tried = 0
    for keys, name in dict.fromkeys((keys.decode(), name.decode()) for keys, name, _ in rows):
        statuses = [int(status) for *named, status in rows if named == [keys.encode(), name.encode()]]
        backups = list(parted(content(os.path.join(STORED, "data", name))))
        expect(f"how many runs {name} has", len(statuses), len(backups))
        for backup, status in zip(backups, statuses):
            expect(f"a backup of {name} under {keys}: {backup.hex()}", 0 if is_right(reader, keys, backup) else 15, status)
            tried += 1
    if tried < 1_000:
        raise Wrong(f"only {tried} stored backups were found")


def is_right(reader, keys, backup):
    try:
        reader.told(content(os.path.join(STORED, "data", keys)), backup, False)
    except reader.Wrong:
        return False
    return True


def manual():
    """The manual's example, command by command, does what is shown."""
    text = content(MANUAL).decode()
    section = text[text.index(HEADING) :]
    lines, *shown = re.findall(r"^```text\n(.*?)^```$", section[: section.index("\n## ")], re.MULTILINE | re.DOTALL)
    if len(shown) != 2:
        raise Wrong("the manual has not two blocks with commands")
    with tempfile.TemporaryDirectory() as room:
        for name, target in (("warlinden", LAUNCHER), ("tools", os.path.join(TOP, "tools"))):
            os.symlink(target, os.path.join(room, name))
        files = {"image": b"abc", "digest": image_digest(b"abc").encode(), "keys": bytes(range(64)), "lines": lines.encode()}
        for name, written in files.items():
            with open(os.path.join(room, name), "wb") as file:
                file.write(written)
        script = "".join(shown)
        asked = [line[len(PROMPT) :] for line in script.splitlines() if line.startswith(PROMPT)]
        # The commands are written before what they write, as a shell shows them.
        played = "\n".join(f"printf '%s\\n' {quoted(PROMPT + line)}\n{kept_status(line)}" for line in asked)
        ran = subprocess.run(["bash", "-c", played], cwd=room, stdout=subprocess.PIPE, stderr=subprocess.STDOUT, timeout=SECONDS)
        expect("what the manual's commands write", ran.stdout.decode(), script)


def quoted(text):
    return "'" + text.replace("'", "'\\''") + "'"


def kept_status(line):
    """A command whose status the next one may ask for."""
    return "echo $last" if line == "echo $?" else f"{line}\nlast=$?"


PARTS = {
    "the reader of backups over stored ones": reader_agrees,
    "the manual's example": manual,
    "keys of each origin": kept_and_restored,
    "lines that are run anew": run_anew,
    "keys in two modules": between_runs,
    "sixteen keys": full,
    "changed backups": changed,
    "random lines": random_runs,
    "files of keys": key_files,
    "ends": ends,
    "faults of streams": faults,
    "a client that waits": answers_at_once,
}


def main():
    signal.signal(signal.SIGALRM, too_late)
    in_room("image", b"abc")
    in_room("digest", image_digest(b"abc").encode())
    in_room("keys", os.urandom(64))
    for name, part in PARTS.items():
        signal.alarm(SECONDS)
        try:
            part()
        except (Wrong, OSError, ValueError, subprocess.SubprocessError) as wrong:
            print(f"backup_words: FAILED: {name}: {wrong}")
            return 1
        signal.alarm(0)
    print("backup_words: passed")
    return 0


if __name__ == "__main__":
    PROGRAM, LAUNCHER = map(os.path.abspath, sys.argv[1:])
    sys.exit(main())

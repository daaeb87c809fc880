#!/usr/bin/env python3
"""Writes what the manual shows of lines, whose replies come from the independent model machine.py.

    python3 checks/manual_lines.py            writes the dialogue in lines, the two summaries, and the backup and what is shown of it into
                                              docs/INTERFACE.md
    python3 checks/manual_lines.py --check    compares these with what it would write, and also looks at what was written by hand:
                                              each example in the table of lines is a line of its service whose body has its form,
                                              and each reply that README.md shows in its typed block is the model's

The image is `abc`, and the noise the bytes 00 to ff over and over. A line is read here by a reader of its own.
"""
import hashlib
import importlib.util
import os
import re
import sys
from types import SimpleNamespace

sys.dont_write_bytecode = True

import machine_functions as functions
from machine import IMAGE_KEY, Machine
from machine_backups import backup_of, restored
from machine_bodies import LARGEST_BODY, BadBody, Service, read_request

TOP = os.path.join(os.path.dirname(os.path.abspath(__file__)), "..")
MANUAL, README = os.path.join(TOP, "docs", "INTERFACE.md"), os.path.join(TOP, "README.md")
BACKUP_HEADING, BACKUP_TABLE = "### The bytes of a backup", "| Byte | Bytes | Content | In the example |"
READER = os.path.join(TOP, "tools", "read_backup.py")
DIALOGUE_HEADING, TABLE_HEADING, README_FIRST = "## A dialogue in lines", "### The lines of the services", "$ ./warlinden try"
IMAGE = b"abc"
DIGEST = functions.hmac(1, IMAGE_KEY, IMAGE)
LONGEST_LINE = 131_400
SHOWN_SESSIONS = ((7, 0), (7, 1000))

# The words of each service's lines behind its name: n and N a number of one byte and of four, r k d e a a name, h and H bytes, of which
# h has 255 at most.
LINES = {
    Service.POWER_ON: "poweron N",
    Service.TEST_STEP: "step",
    Service.REQUEST_TESTS: "tests",
    Service.SHOW_STATUS: "status",
    Service.SHOW_VERSION: "version",
    Service.SELECT_ROLE: "role r",
    Service.RESET: "reset",
    Service.ENTRY_BEGIN: "begin n k d e N n",
    Service.ENTRY_BYTES: "bytes H",
    Service.ENTRY_COMMIT: "commit H",
    Service.ENTRY_ABORT: "abort",
    Service.ZEROISE: "zeroise n",
    Service.ZEROISE_ALL: "zeroiseall",
    Service.SHOW_SLOT: "slot n",
    Service.ZEROISE_TREE: "zeroisetree n",
    Service.HASH: "hash a H",
    Service.MAC: "mac n a n H",
    Service.MAC_VERIFY: "verify n a h H",
    Service.SEAL: "seal n n H H",
    Service.SEAL_IV: "sealiv n n h H H",
    Service.OPEN: "open n h H H h",
    Service.WRAP: "wrap n n",
    Service.UNWRAP: "unwrap n n k e N H",
    Service.WRAP_PAD: "wrappad n n",
    Service.UNWRAP_PAD: "unwrappad n n k e N H",
    Service.DERIVE: "derive n n k e N n h H",
    Service.RANDOM: "random N H",
    Service.GENERATE: "generate n k d e N n",
    Service.RESEED: "reseed H",
}
NAMES = {
    "r": ("none", "officer", "user"),
    "k": (None, "aes", "kek", "mac", "kdf"),
    "d": ("other", "approved"),
    "e": ("keep", "export"),
    "a": (None, "sha256", "sha384", "sha512"),
}
NUMBERS = {"n": (255, 1), "N": (2**32 - 1, 4)}
MOST_BYTES = {"h": 255, "H": LARGEST_BODY}
SERVICES = {form.split()[0]: (service, form.split()[1:]) for service, form in LINES.items()}


class BadLine(Exception):
    pass


def need(holds):
    if not holds:
        raise BadLine


def value_of(letter, word):
    """The bytes that a word spells."""
    if letter in NAMES:
        need(word in NAMES[letter])
        return bytes([NAMES[letter].index(word)])
    if letter in NUMBERS:
        most, width = NUMBERS[letter]
        need(re.fullmatch("0|[1-9][0-9]{0,9}", word, re.ASCII) and int(word) <= most)
        return int(word).to_bytes(width, "big")
    need(word == "-" or re.fullmatch("([0-9a-fA-F]{2})+", word))
    value = b"" if word == "-" else bytes.fromhex(word)
    need(len(value) <= MOST_BYTES[letter])
    return value


def short(value):
    return bytes([len(value)])


def long(value):
    return len(value).to_bytes(4, "big")


# How the words make a body where they don't just stand one behind the other.
BODIES = {
    Service.MAC_VERIFY: lambda slot, alg, mac, text: slot + alg + short(mac) + mac + text,
    Service.SEAL: lambda slot, length, aad, text: slot + length + long(aad) + aad + text,
    Service.SEAL_IV: lambda slot, length, iv, aad, text: slot + length + short(iv) + long(aad) + iv + aad + text,
    Service.OPEN: lambda slot, iv, aad, text, tag: slot + short(tag) + short(iv) + long(aad) + iv + aad + text + tag,
    Service.DERIVE: lambda *words: b"".join(words[:6]) + short(words[6]) + words[6] + words[7],
}


def command_of(line):
    """Service and body of a line, None for a comment; BadLine where it is neither."""
    need(len(line) <= LONGEST_LINE)
    if line == b"" or line.startswith(b"#"):
        return None
    name, *words = line.decode("latin-1").split(" ")
    need(name in SERVICES)
    service, letters = SERVICES[name]
    need(len(words) == len(letters))
    values = [value_of(letter, word) for letter, word in zip(letters, words)]
    body = BODIES.get(service, lambda *parts: b"".join(parts))(*values)
    need(len(body) <= LARGEST_BODY)
    return service, body


def named(value):
    return value.name.title().replace("_", "")


def reply_line(reply):
    words = [named(reply.status), named(reply.state), str(reply.approved), f"{reply.code:04x}", reply.block.ljust(12, b"\0").hex()]
    return " ".join(words + [reply.payload.hex() or "-"])


def counting(count):
    return bytes(k % 256 for k in range(count))


def new_machine(samples=4096):
    return Machine(IMAGE, DIGEST, counting(samples))


def answered(machine, line):
    """The reply to a line, None to a comment."""
    command = command_of(line.encode())
    return command and machine.command(*command)


class Dialogue:
    """The rows so far, each a line, its reply line and words about it."""

    def __init__(self):
        self.machine, self.rows, self.count = new_machine(), [], 0

    def say(self, line, words, status="Ok"):
        """Answers what the module gave."""
        self.count += 1
        try:
            reply = answered(self.machine, line)
        except BadLine:
            self.rows.append((line, f"`bad line {self.count}`", words))
            return None
        if reply is None:
            self.rows.append((line, "none", words))
            return None
        assert named(reply.status) == status, (line, named(reply.status))
        self.rows.append((line, f"`{reply_line(reply)}`", words))
        return reply.payload

    def enter(self, header, parameter, words):
        """The words of a `begin`, which is told first, and the bytes of the parameter."""
        self.say(f"begin {header}", words)
        for at in range(0, len(parameter), 16):
            self.say(f"bytes {parameter[at : at + 16].hex()}", f"its bytes {at} to {min(at + 15, len(parameter) - 1)}")
        _, body = command_of(f"begin {header}".encode())
        self.say(f"commit {functions.hmac(1, parameter, body)[:8].hex()}", f"its check value, made of the bytes `{body.hex()}`")

    def table(self):
        return ["| Line | Reply | In words |", "|---|---|---|", *(f"| `{line}` | {reply} | {words} |" for line, reply, words in self.rows)]


IV, AAD, TEXT = "000000000000000000000000", b"to: all".hex(), b"attack at dawn".hex()


def begin(dialogue):
    dialogue.say("poweron 0", "power, and a period of 0: tests are never due again by themselves")
    dialogue.say("tests", "the self-tests, please")
    dialogue.say("step", "HMAC-SHA-256")
    dialogue.say("step", "the image")
    dialogue.say("step", "the generator, with 1,408 bytes of noise")
    dialogue.say("# the officer enters keys", "a comment: it is counted as a line, and makes no command")
    dialogue.say("role officer", "")


def enter_and_wrap(dialogue):
    """Slot 0 an AES key, slot 1 a wrapping key, slot 2 the AES key again, unwrapped; slot 3 a derivation key, slot 4 a MAC key of it."""
    dialogue.enter("0 aes other export 100 32", bytes(range(32)), "an AES key of 32 bytes for slot 0, domain Other, exportable, 100 uses")
    dialogue.say("slot 0", "an AES key (`01`), Other, exportable, 32 bytes (`20`), 100 uses left (`64`)")
    dialogue.enter("1 kek other keep 10 16", bytes(range(0x40, 0x50)), "a wrapping key of 16 bytes for slot 1")
    wrapped = dialogue.say("wrap 1 0", "the key of slot 0, wrapped under slot 1").hex()
    dialogue.say(f"unwrap 1 2 aes keep 5 {wrapped}", "unwrapped into slot 2, not exportable, 5 uses")
    dialogue.say("wrap 1 2", "which doesn't leave again", "NotExportable")
    dialogue.enter("3 kdf other keep 20 32", bytes(range(0x60, 0x80)), "a derivation key of 32 bytes for slot 3")
    label, context = b"label".hex(), b"context".hex()
    dialogue.say(f"derive 3 4 mac keep 10 32 {label} {context}", "a MAC key of 32 bytes for slot 4, with `label` and `context`")


def use(dialogue):
    dialogue.say("role user", "")
    words = "`attack at dawn` under an IV of 12 zero bytes, with `to: all`: ciphertext, and a tag of 16 bytes"
    sealed = dialogue.say(f"sealiv 0 16 {IV} {AAD} {TEXT}", words)
    text, tag = sealed[:-16], sealed[-16:]
    turned = tag[:-1] + bytes([tag[-1] ^ 1])
    dialogue.say(f"open 2 {IV} {AAD} {text.hex()} {tag.hex()}", "opened under slot 2, which has the same key")
    dialogue.say(f"open 2 {IV} {AAD} {text.hex()} {turned.hex()}", "with the tag's last bit turned", "AuthFailed")
    mac = dialogue.say(f"mac 4 sha256 32 {TEXT}", "HMAC-SHA-256 under the derived key")
    dialogue.say(f"verify 4 sha256 {mac[:8].hex()} {TEXT}", "its first 8 bytes are right")
    dialogue.say(f"seal 4 16 - {TEXT}", "slot 4 holds no AES key; an IV is drawn and lost", "WrongKind")
    dialogue.say("hash sha256 616263", "SHA-256 of `abc`; approved")
    dialogue.say("random 16 -", "16 random bytes; approved")
    dialogue.say("status", "the tests 1, 4, 7 to 10, 13 and 14 passed; period 0")


def end(dialogue):
    dialogue.say("role officer", "")
    dialogue.say("zeroisetree 3", "slot 3, and slot 4, which was derived from it")
    dialogue.say("slot 4", "empty")
    dialogue.say("zeroisetree 1", "slot 1, and slot 2, which was unwrapped under it")
    dialogue.say("slot 2", "empty")
    dialogue.say("slot 0", "as it was, one use spent: it was only wrapped")
    dialogue.say("poweron 0", "it is powered", "NotInState")
    dialogue.say("random 0 -", "a number that its field holds and the service refuses", "BadBody")
    dialogue.say("role Officer", "no line: names are in lower case. Exit status 10")


def dialogue_table():
    dialogue = Dialogue()
    for part in (begin, enter_and_wrap, use, end):
        part(dialogue)
    return dialogue.table()


MULTIPLIER, INCREMENT = 6364136223846793005, 1442695040888963407
GENERATED = tuple(f"generate {slot} {kind} approved export 1000000 32" for slot, kind in enumerate(("aes", "kek", "mac", "kdf")))
FIRST = ("poweron 0", "tests", "step", "step", "step", "role officer", *GENERATED, "role user")


def drawn_line(r):
    """The command that a number of 32 bits stands for, as a line."""
    m, n = r % 8, r // 256 % 4096
    text = bytes((i + r) % 256 for i in range(n)).hex() or "-"
    return (
        f"hash sha256 {text}", f"mac 2 sha256 32 {text}", f"seal 0 16 - {text}", f"random {n + 1} -", f"hash sha512 {text}",
        f"open 0 {IV} - {text} {'00' * 16}", "status", f"slot {n % 16}",
    )[m]


def session_lines(seed, count):
    yield from FIRST
    x = seed
    for _ in range(count):
        x = (MULTIPLIER * x + INCREMENT) % 2**64
        yield drawn_line(x >> 32)


def summary(seed, count):
    machine, counts, payload, digest, commands = new_machine(), [0] * 16, 0, hashlib.sha256(), 0
    for line in session_lines(seed, count):
        reply = answered(machine, line)
        commands += 1
        counts[reply.status] += 1
        payload += len(reply.payload)
        digest.update(reply.spelling())
    told = [f"commands {commands}", *(f"status {status} {times}" for status, times in enumerate(counts))]
    return [*told, f"payload {payload}", f"state {named(machine.state)}", f"sha256 {digest.hexdigest()}"]


class Backup:
    """The worked backup: its lines, its bytes, and what is shown of them."""

    def __init__(self):
        self.keys, key, header = counting(64), b"Jefe", "2 mac other export 7 4"
        _, body = command_of(f"begin {header}".encode())
        entry = [f"begin {header}", f"bytes {key.hex()}", f"commit {functions.hmac(1, key, body)[:8].hex()}"]
        self.lines = [*FIRST[:6], *entry]
        machine = new_machine()
        assert all(named(answered(machine, line).status) == "Ok" for line in self.lines)
        self.bytes = backup_of(machine.slots, self.keys)
        assert self.bytes.hex().startswith("534d4231" "01" "02" "03" "00" "00000007" "04") and len(self.bytes) == 61

    def cells(self):
        """What the table's last column has, row by row."""
        whole, ends = self.bytes, (0, 4, 5, 6, 7, 8, 12, 13, 29)
        fields = [f"`{whole[at:end].hex()}`" for at, end in zip(ends, ends[1:])]
        return [*fields, "none", f"`{whole[29:].hex()}`"]

    def told(self):
        """What the reader of backups tells of it."""
        spec = importlib.util.spec_from_file_location("read_backup", READER)
        reader = importlib.util.module_from_spec(spec)
        spec.loader.exec_module(reader)
        return reader.in_words(self.bytes, reader.told(self.keys, self.bytes, False))

    def shown_slot(self):
        machine = new_machine()
        for line in FIRST[:6]:
            answered(machine, line)
        machine.slots = restored(machine.slots, self.keys, self.bytes)
        return reply_line(answered(machine, "slot 2"))

    def blocks(self):
        """The lines; what is done with them in a shell; and what with a backup that is cut, and with one of which a bit is turned."""
        files, last = "image digest /dev/random", self.bytes[-1]
        done = [f"$ ./warlinden backup keys {files} <lines >backup", "$ python3 tools/read_backup.py keys backup", *self.told()]
        done += [f"$ echo slot 2 | ./warlinden restore keys backup {files}", self.shown_slot()]
        turned = f"$ printf '\\{last ^ 1:o}' | dd of=backup bs=1 seek={len(self.bytes) - 1} conv=notrunc status=none"
        refused = [f"$ head -c {len(self.bytes) - 1} backup >shorter", *refusal("shorter", files), turned, *refusal("backup", files)]
        return self.lines, done, refused


def refusal(name, files):
    return [f"$ ./warlinden restore keys {name} {files} </dev/null", "bad backup", "$ echo $?", "15"]


def end_of_table(lines, at):
    return next(place for place in range(at, len(lines)) if not lines[place].startswith("|"))


def places_of_backup(lines):
    """The example's column, and the blocks behind the table, each with what is to stand there."""
    backup, start = Backup(), lines.index(BACKUP_HEADING)
    at = lines.index(BACKUP_TABLE, start)
    end = end_of_table(lines, at)
    rows = [f"{row.rsplit(' |', 2)[0]} | {cell} |" for row, cell in zip(lines[at + 2 : end], backup.cells(), strict=True)]
    yield (at + 2, end), rows
    for block in backup.blocks():
        at = lines.index("```text", end) + 1
        end = lines.index("```", at)
        yield (at, end), block
        end += 1


def place_of_table(lines):
    at = lines.index("| Line | Reply | In words |", lines.index(DIALOGUE_HEADING))
    return at, end_of_table(lines, at)


def place_of_summary(lines, words):
    at = lines.index(f"$ ./warlinden {words} image digest noise") + 1
    return at, lines.index("```", at)


def with_values(lines):
    """The manual's lines with all that is computed in its place."""
    places = [(place_of_table(lines), dialogue_table())]
    places += [(place_of_summary(lines, f"session {seed} {count}"), summary(seed, count)) for seed, count in SHOWN_SESSIONS]
    places += places_of_backup(lines)
    for (at, end), values in sorted(places, reverse=True):
        lines = lines[:at] + values + lines[end:]
    return lines


def is_right_example(row):
    form, example = row.form.split(), row.example.split()
    try:
        service, body = command_of(row.example.encode())
        read_request(service, body)
    except (BadLine, BadBody):
        return False
    return (named(service), form[0], len(form)) == (row.service, example[0], len(example))


def faults_of_examples(lines):
    """Each row of the table of lines: the name of the service, its form, an example."""
    at = lines.index(TABLE_HEADING)
    found = []
    while not lines[at].startswith("| PowerOn"):
        at += 1
    while lines[at].startswith("|"):
        service, form, example = re.match(r"\| (\w+) \| `([^`]+)` \| `([^`]+)` \|", lines[at]).groups()
        found.append(SimpleNamespace(service=service, form=form, example=example))
        at += 1
    in_order = [row.service for row in found] == [named(service) for service in Service]
    faults = [] if in_order else ["the table hasn't each service once, in order"]
    return faults + [f"the example of {row.service}" for row in found if not is_right_example(row)]


def faults_of_readme(lines):
    """The block that begins with `try`: a typed line, its reply, and so on."""
    at = lines.index(README_FIRST) + 1
    typed = lines[at : lines.index("```", at)]
    machine, faults = new_machine(), []
    for line, shown in zip(typed[::2], typed[1::2]):
        if reply_line(answered(machine, line)) != shown:
            faults.append(f"README's reply to {line}")
    return faults + ([] if len(typed) >= 10 and len(typed) % 2 == 0 else ["README's typed block"])


def lines_of(path):
    with open(path, encoding="utf-8") as file:
        return file.read().split("\n")


def check():
    lines = lines_of(MANUAL)
    faults = [] if with_values(lines) == lines else ["what it writes into docs/INTERFACE.md"]
    faults += faults_of_examples(lines) + faults_of_readme(lines_of(README))
    for fault in faults:
        print(f"rows: FAILED: checks/manual_lines.py: {fault}")
    if not faults:
        print("rows: checks/manual_lines.py: the manual's lines and the README's are the model's")
    return 1 if faults else 0


def main(words):
    if words == ["--check"]:
        return check()
    lines = with_values(lines_of(MANUAL))
    with open(MANUAL, "w", encoding="utf-8") as manual:
        manual.write("\n".join(lines))
    return 0


if __name__ == "__main__":
    sys.exit(main(sys.argv[1:]))

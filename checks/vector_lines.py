"""Tries tools/vector_lines.py on small files that are made here in the forms of CAVP and of Wycheproof, with values that Python's
hashlib, hmac and cryptography compute, and compares the lines that it writes and what it says of those that it leaves out.

usage: vector_lines.py [LAUNCHER]. Where the launcher is named, the lines also go through its `vectors`, and each must pass; and so do
the examples of docs/INTERFACE.md and docs/VECTORS.md.
"""
import hashlib
import hmac
import io
import json
import os
import re
import subprocess
import sys
import tempfile
from contextlib import redirect_stdout

sys.dont_write_bytecode = True

from cryptography.hazmat.primitives import cmac, hashes
from cryptography.hazmat.primitives.ciphers.aead import AESGCM
from cryptography.hazmat.primitives.ciphers.algorithms import AES
from cryptography.hazmat.primitives.kdf.kbkdf import KBKDFCMAC, KBKDFHMAC, CounterLocation, Mode
from cryptography.hazmat.primitives.keywrap import aes_key_wrap, aes_key_wrap_with_padding

with redirect_stdout(io.StringIO()):
    from drbg_rows import Generator

TOP = os.path.join(os.path.dirname(os.path.abspath(__file__)), "..")
SCRIPT = os.path.join(TOP, "tools", "vector_lines.py")
COUNTING = bytes(range(256))
KEY, IV, AAD, TEXT = COUNTING[:16], COUNTING[16:28], COUNTING[64:84], COUNTING[100:137]
LABEL, CONTEXT = b"label", b"context"
SECONDS = 60


def word(value):
    return value if isinstance(value, str) else value.hex() or "-"


def turned(value):
    """The value with its last bit turned."""
    return value[:-1] + bytes([value[-1] ^ 1])


def cmac_of(key, text):
    made = cmac.CMAC(AES(key))
    made.update(text)
    return made.finalize()


class Made:
    """A file that is made: its text, the lines that it must give, and of each reason how many vectors are left out for it."""

    def __init__(self, name, *head):
        self.name, self.text, self.lines, self.left_out = name, "\n".join(head) + "\n", [], {}

    def gives(self, *lines):
        """The vector that was added last gives these lines."""
        self.lines += [" ".join(map(word, line)) for line in lines]

    def leaves_out(self, reason):
        self.left_out[reason] = self.left_out.get(reason, 0) + 1


class Cavp(Made):
    def bracket(self, *parts):
        self.text += "".join(f"[{part}]\n" for part in parts) + "\n"

    def add(self, *fields):
        """Fields, of which one without a value stands alone in its line, and one that begins with a tab as it is."""
        for field in fields:
            name, value = field if isinstance(field, tuple) else (field, None)
            shown = value.hex() if isinstance(value, bytes) else value
            self.text += f"{name}\n" if value is None else f"{name} = {shown}\n"
        self.text += "\n"
        return self


def digests():
    file = Cavp("SHA512ShortMsg.rsp", "#  CAVS 11.0", '#  "SHA-512 ShortMsg" information')
    for size, other in (("512", False), ("384", False), ("256", False), ("224", True)):
        file.bracket(f"L = {int(size) // 8}")
        for text in (b"", b"abc"):
            out = hashlib.new(f"sha{size}", text).digest()
            file.add(("Len", 8 * len(text)), ("Msg", text or b"\0"), ("MD", out))
            file.leaves_out("another algorithm") if other else file.gives((f"sha{size}", text, out))
    file.bracket("L = 32")
    file.add(("Len", 5), ("Msg", "68"), ("MD", bytes(32))).leaves_out("bits that aren't whole bytes")
    file.add(("Len", 24), ("Msg", "6162"), ("MD", bytes(32))).leaves_out("Msg of another length than is told")
    file.add(("Len", 8 * 70_000), ("Msg", bytes(70_000)), ("MD", bytes(32))).leaves_out("longer than a line may be")
    file.add(("Len", 8), ("Msg", "6g"), ("MD", bytes(32))).leaves_out("a value that isn't whole bytes in hex")
    file.add(("Seed", bytes(32))).leaves_out("a Monte Carlo test")
    file.add(("COUNT", 0), ("MD", bytes(32))).leaves_out("a Monte Carlo test")
    return file


def other_digests():
    """Digests of 32 bytes that aren't of SHA-256."""
    file = Cavp("some.rsp", '#  "SHA-512/256 ShortMsg" information')
    file.bracket("L = 32")
    file.add(("Len", 24), ("Msg", b"abc"), ("MD", hashlib.new("sha512_256", b"abc").digest())).leaves_out("another algorithm")
    return file


def macs():
    file = Cavp("HMAC.rsp", "# CAVS 11.0", "# Hash sizes tested: 20 28 32 48 64")
    for length, size in ((20, "1"), (32, "256"), (48, "384"), (64, "512")):
        file.bracket(f"L={length}")
        mac = hmac.digest(COUNTING[:70], TEXT, f"sha{size}")
        fields = (("Klen", 70), ("Tlen", length), ("Key", COUNTING[:70]), ("Msg", TEXT))
        file.add(("Count", 0), *fields, ("Mac", mac))
        file.leaves_out("another algorithm") if size == "1" else file.gives((f"hmac{size}", COUNTING[:70], TEXT, mac))
    file.add(("Count", 1), ("Klen", 4), ("Tlen", 16), ("Key", b"Jefe"), ("Msg", TEXT), ("Mac", bytes(16))).leaves_out("a MAC that is cut")
    return file


def gcm_groups(file, key):
    for iv, tag_length in ((IV, 16), (IV, 12), (IV, 4), (COUNTING[:128], 16), (b"\x05", 13)):
        file.bracket(f"Keylen = {8 * len(key)}", f"IVlen = {8 * len(iv)}", f"Taglen = {8 * tag_length}")
        for aad, text in ((b"", b""), (AAD, TEXT)):
            yield iv, aad, text, tag_length
    file.bracket("Keylen = 128", "IVlen = 0")


def tag_reason(file, length, *lines):
    file.gives(*lines) if length >= 12 else file.leaves_out("a tag of fewer than 12 or more than 16 bytes")


def sealed_with(key, iv, aad, text, tag_length):
    """Ciphertext and tag. cryptography takes no IV of fewer than 8 bytes, which are hashed: the model's GCM does."""
    from machine_functions import gcm_seal

    out, tag = gcm_seal(key, iv, aad, text)
    assert len(iv) < 8 or out + tag == AESGCM(key).encrypt(iv, text, aad)
    return out, tag[:tag_length]


def sealings():
    file = Cavp("gcmEncryptExtIV192.rsp", "# CAVS 14.0", "# GCM Encrypt with keysize 192 test information")
    key = COUNTING[:24]
    for count, (iv, aad, text, length) in enumerate(gcm_groups(file, key)):
        out, tag = sealed_with(key, iv, aad, text, length)
        file.add(("Count", count), ("Key", key), ("IV", iv), ("PT", text), ("AAD", aad), ("CT", out), ("Tag", tag))
        tag_reason(file, length, ("seal", key, iv, aad, text, out, tag))
    file.add(("Count", 0), ("Key", key), ("IV", ""), ("PT", ""), ("AAD", ""), ("CT", ""), ("Tag", bytes(16)))
    file.leaves_out("an IV of fewer than 1 or more than 255 bytes")
    file.add(("Count", 0), ("Key", key), ("IV", IV), ("Salt", IV), ("PT", ""), ("AAD", ""), ("CT", ""), ("Tag", bytes(16)))
    file.leaves_out("another algorithm")
    return file


def openings():
    file = Cavp("gcmDecrypt256.rsp", "# CAVS 14.0", "# GCM Decrypt with keysize 256 test information")
    key = COUNTING[:32]
    for count, (iv, aad, text, length) in enumerate(gcm_groups(file, key)):
        out, tag = sealed_with(key, iv, aad, text, length)
        fields = (("Count", count), ("Key", key), ("IV", iv), ("CT", out), ("AAD", aad))
        file.add(*fields, ("Tag", tag), ("PT", text))
        tag_reason(file, length, ("open", key, iv, aad, out, tag, text))
        file.add(*fields, ("Tag", turned(tag)), "FAIL")
        tag_reason(file, length, ("open", key, iv, aad, out, turned(tag), "fail"))
    return file


def wrappings(pad):
    """A file of wrappings and one of openings, whose comments or name tell that they are KW or KWP."""
    name, wrap, line = ("KWP", aes_key_wrap_with_padding, "wrappad") if pad else ("KW", aes_key_wrap, "wrap")
    made = Cavp(f"{name}_AE_128.txt", "# CAVS 17.4")
    opened = Cavp("renamed.txt", f"# 'NIST SP 800-38F {name}-AD with AES-128 cipher function' information")
    for length in (7, 64) if pad else (16, 40):
        made.bracket(f"PLAINTEXT LENGTH = {8 * length}")
        opened.bracket(f"PLAINTEXT LENGTH = {8 * length}")
        text, out = COUNTING[:length], wrap(KEY, COUNTING[:length])
        made.add(("COUNT", 0), ("K", KEY), ("P", text), ("C", out)).gives((line, KEY, text, out))
        opened.add(("COUNT", 0), ("K", KEY), ("C", out), ("P", text)).gives((f"un{line}", KEY, out, text))
        opened.add(("COUNT", 1), ("K", KEY), ("C", turned(out)), "FAIL").gives((f"un{line}", KEY, turned(out), "fail"))
    named = "a text to be wrapped with padding" if pad else "a text to be wrapped"
    made.add(("COUNT", 2), ("K", KEY), ("P", bytes(512)), ("C", bytes(520)))
    made.leaves_out(f"{named} of fewer than {1 if pad else 16} or more than 64 bytes")
    named = "a wrapping with padding" if pad else "a wrapping"
    opened.add(("COUNT", 2), ("K", KEY), ("C", bytes(520)), "FAIL")
    opened.leaves_out(f"{named} of fewer than {16 if pad else 24} or more than 72 bytes")
    opened.add(("COUNT", 3), ("K", KEY), ("C", bytes(33)), "FAIL").leaves_out("a wrapping that isn't a multiple of 8 bytes")
    return made, opened


def other_wrappings():
    record = (("COUNT", 0), ("K", bytes(24)), ("P", bytes(16)), ("C", bytes(24)))
    rows = (
        ("TKW_AE.txt", "# CAVS", "another algorithm"),
        ("KW_AE_192_inv.txt", "# CAVS", "wrapping by AES's inverse"),
        ("some.txt", "# CAVS", "a wrapping of which neither name nor comments tell whether it is KW or KWP"),
    )
    for name, head, reason in rows:
        file = Cavp(name, head)
        file.add(*record).leaves_out(reason)
        yield file


def fixed_input(length):
    return LABEL + b"\0" + CONTEXT + (8 * length).to_bytes(4, "big")


def add_derivation(file, key, fixed, out, **more):
    shown = ("\tBinary rep of i = 00000001", "\t\tinstring = 00")
    about = (("FixedInputDataByteLen", len(fixed)), ("FixedInputData", fixed))
    return file.add(("COUNT", 0), ("L", 8 * len(out)), ("KI", key), *more.get("iv", ()), *about, *shown, ("KO", out))


def derivations():
    file = Cavp("KDFCTR_gen.rsp", '# "SP800-108 - KDF" information', "# KDF Mode Supported: Counter Mode")
    parts = (Mode.CounterMode, 40, 4, 4, CounterLocation.BeforeFixed, LABEL, CONTEXT, None)
    by_hmac = KBKDFHMAC(hashes.SHA256(), *parts).derive(KEY)
    by_cmac = KBKDFCMAC(AES, *parts).derive(KEY)
    file.bracket("PRF=CMAC_AES128", "CTRLOCATION=BEFORE_FIXED", "RLEN=8_BITS")
    add_derivation(file, KEY, fixed_input(40), by_cmac).leaves_out("a counter of other than 32 bits")
    file.bracket("RLEN=32_BITS")
    add_derivation(file, KEY, fixed_input(40), by_cmac).gives(("kbcounter", KEY, LABEL, CONTEXT, by_cmac))
    file.bracket("PRF=HMAC_SHA256")
    add_derivation(file, KEY, fixed_input(40), by_hmac).gives(("derive", KEY, LABEL, CONTEXT, by_hmac))
    add_derivation(file, KEY, fixed_input(40)[:-1] + b"\0", by_hmac).leaves_out("fixed input that doesn't end with the length in 32 bits")
    no_zero = b"\1" * 60 + (320).to_bytes(4, "big")
    add_derivation(file, KEY, no_zero, by_hmac).leaves_out("fixed input that has no label, zero byte and context of at most 255 bytes each")
    # the first zero byte leaves too long a context, and the second doesn't
    long_fixed = b"\1\0" + b"\2" * 20 + b"\0" + b"\3" * 250
    out = b"".join(hmac.digest(KEY, bytes([0, 0, 0, i]) + long_fixed + (256).to_bytes(4, "big"), "sha256") for i in (1,))
    add_derivation(file, KEY, long_fixed + (256).to_bytes(4, "big"), out).gives(("derive", KEY, long_fixed[:22], long_fixed[23:], out))
    file.bracket("CTRLOCATION=AFTER_FIXED")
    add_derivation(file, KEY, fixed_input(40), by_hmac).leaves_out("a counter that doesn't stand before the fixed input")
    file.bracket("PRF=HMAC_SHA1", "CTRLOCATION=BEFORE_FIXED")
    add_derivation(file, KEY, fixed_input(40), by_hmac).leaves_out("another algorithm")
    add_derivation(file, KEY, fixed_input(40), by_hmac, iv=[("IVlen", 0), ("IV", "")]).leaves_out("another mode than with a counter alone")
    return file


def draws():
    file = Cavp("HMAC_DRBG.rsp", "# CAVS 14.3", '# DRBG800-90A information for "drbg_pr"')
    entropy, nonce, personal = COUNTING[:32], COUNTING[32:48], COUNTING[48:80]
    out = Generator(entropy, nonce, personal).generate(128)
    seed = (("COUNT", 0), ("EntropyInput", entropy), ("Nonce", nonce), ("PersonalizationString", personal))
    request, drawn = ("AdditionalInput", ""), ("ReturnedBits", out)
    file.bracket("SHA-256", "PredictionResistance = False", "EntropyInputLen = 256")
    file.add(*seed, request, drawn).gives(("drbg", entropy, nonce, personal, out))
    file.add(*seed, request, request, drawn).leaves_out("two requests, of which the second's bytes are told")
    file.add(*seed, ("AdditionalInput", b"more"), drawn).leaves_out("additional input")
    file.add(*seed, drawn).leaves_out("without AdditionalInput, which would tell how many requests there are")
    file.add(*seed, ("EntropyInputReseed", entropy), ("AdditionalInputReseed", ""), request, drawn).leaves_out("a reseed")
    file.bracket("SHA-256", "PredictionResistance = True")
    file.add(*seed, request, drawn).leaves_out("prediction resistance")
    file.bracket("SHA-512", "PredictionResistance = False")
    file.add(*seed, request, drawn).leaves_out("another algorithm")
    other = Cavp("Hash_DRBG.rsp", "# CAVS 14.3")
    other.bracket("SHA-256", "PredictionResistance = False")
    other.add(*seed, request, drawn).leaves_out("another algorithm")
    return file, other


def cmacs():
    file = Cavp("CMACGenAES128.rsp", "#  CAVS 8.0", '#  "CMACGenAES128" information')
    for text in (b"", TEXT):
        mac = cmac_of(KEY, text)
        fields = (("Count", 0), ("Klen", 16), ("Mlen", len(text)), ("Tlen", 16), ("Key", KEY), ("Msg", text or b"\0"))
        file.add(*fields, ("Mac", mac)).gives(("cmac", KEY, text, mac))
        file.add(*fields, ("Mac", mac), ("Result", "P")).gives(("cmac", KEY, text, mac))
        file.add(*fields, ("Mac", turned(mac)), ("Result", "F (1 - Message changed)")).leaves_out("a MAC that is to be refused")
        file.add(*fields, ("Mac", mac[:4])).leaves_out("a MAC that is cut")
    three_keys = (("Klen", 3), ("Mlen", 0), ("Tlen", 8), ("Key1", bytes(8)), ("Msg", "00"), ("Mac", bytes(8)))
    file.add(("Count", 0), *three_keys).leaves_out("another algorithm")
    file.add(("COUNT", 0), ("PLAINTEXT", bytes(16)), ("CIPHERTEXT", bytes(16))).leaves_out("fields of no form that is known here")
    return file


class Wycheproof(Made):
    def __init__(self, name, algorithm):
        super().__init__(name)
        self.algorithm, self.tests = algorithm, []

    def add(self, result, **values):
        shown = {name: value.hex() for name, value in values.items()}
        self.tests.append({"tcId": len(self.tests) + 1, "comment": "", "result": result, "flags": [], **shown})
        return self

    def finished(self):
        half = len(self.tests) // 2
        groups = [{"type": "Test", "tests": self.tests[:half]}, {"type": "Test", "tests": self.tests[half:]}]
        self.text = json.dumps({"algorithm": self.algorithm, "numberOfTests": len(self.tests), "testGroups": groups}, indent=2)
        return self


def wycheproof_gcm():
    file = Wycheproof("aes_gcm_test.json", "AES-GCM")
    out, tag = sealed_with(KEY, IV, AAD, TEXT, 16)
    parts = dict(key=KEY, iv=IV, aad=AAD, msg=TEXT, ct=out)
    file.add("valid", **parts, tag=tag)
    file.gives(("seal", KEY, IV, AAD, TEXT, out, tag), ("open", KEY, IV, AAD, out, tag, TEXT))
    file.add("invalid", **parts, tag=turned(tag)).gives(("open", KEY, IV, AAD, out, turned(tag), "fail"))
    file.add("acceptable", **parts, tag=tag).leaves_out("a result that is neither valid nor invalid")
    file.add("invalid", **{**parts, "iv": b""}, tag=tag).leaves_out("an IV of fewer than 1 or more than 255 bytes")
    file.add("invalid", **{**parts, "key": bytes(20)}, tag=tag).leaves_out("a key that AES doesn't have")
    file.add("valid", **parts).leaves_out("without tag")
    return file.finished()


def wycheproof_wrappings(name, algorithm, pad):
    file = Wycheproof(name, algorithm)
    text, line = (TEXT[:13], "wrappad") if pad else (TEXT[:24], "wrap")
    out = aes_key_wrap_with_padding(KEY, text) if pad else aes_key_wrap(KEY, text)
    file.add("valid", key=KEY, msg=text, ct=out).gives((line, KEY, text, out), (f"un{line}", KEY, out, text))
    file.add("invalid", key=KEY, msg=text, ct=turned(out)).gives((f"un{line}", KEY, turned(out), "fail"))
    file.add("invalid", key=KEY, msg=b"", ct=bytes(8))
    file.leaves_out(f"a wrapping{' with padding' if pad else ''} of fewer than {16 if pad else 24} or more than 72 bytes")
    return file.finished()


def wycheproof_macs(name, algorithm, line, mac, cut):
    file = Wycheproof(name, algorithm)
    file.add("valid", key=KEY, msg=TEXT, tag=mac).gives((line, KEY, TEXT, mac))
    file.add("invalid", key=KEY, msg=TEXT, tag=turned(mac)).leaves_out("a MAC that is to be refused")
    file.add("valid", key=KEY, msg=TEXT, tag=mac[:cut]).leaves_out("a MAC that is cut")
    return file.finished()


def wycheproof_files():
    yield wycheproof_gcm()
    for name, algorithm, pad in (("kw_test.json", "KW", False), ("aes_wrap_test.json", "AES-WRAP", False),
                                 ("kwp_test.json", "KWP", True), ("aes_kwp_test.json", "AES-KWP", True)):
        yield wycheproof_wrappings(name, algorithm, pad)
    for size in (256, 384, 512):
        mac = hmac.digest(KEY, TEXT, f"sha{size}")
        yield wycheproof_macs(f"hmac_sha{size}_test.json", f"HMACSHA{size}", f"hmac{size}", mac, size // 16)
    yield wycheproof_macs("aes_cmac_test.json", "AES-CMAC", "cmac", cmac_of(KEY, TEXT), 8)
    other = Wycheproof("aes_eax_test.json", "AES-EAX")
    other.add("valid", key=KEY).leaves_out("another algorithm")
    yield other.finished()


def all_files():
    yield digests()
    yield other_digests()
    yield macs()
    yield sealings()
    yield openings()
    for pad in (False, True):
        yield from wrappings(pad)
    yield from other_wrappings()
    yield derivations()
    yield from draws()
    yield cmacs()
    yield from wycheproof_files()


class Wrong(Exception):
    """Something else came than expected."""


def expect(what, got, wanted):
    if got != wanted:
        raise Wrong(f"{what}: {got!r}\n    in place of {wanted!r}")


def run(words, **how):
    return subprocess.run(words, stdout=subprocess.PIPE, stderr=subprocess.PIPE, text=True, timeout=SECONDS, **how)


def lines_by_script(path):
    return run([sys.executable, "-B", SCRIPT, path])


def try_file(file, room, end):
    """The file's lines as the script writes them, once they are the expected ones."""
    path = os.path.join(room, file.name)
    with open(path, "w", encoding="ascii", newline="") as out:
        out.write(file.text.replace("\n", end))
    ran = lines_by_script(path)
    comments, lines = ran.stdout.splitlines()[::2], ran.stdout.splitlines()[1::2]
    expect(f"lines of {file.name}", lines, file.lines)
    expect(f"comments of {file.name}", [line.split(", ")[0] for line in comments], [f"# {file.name}"] * len(lines))
    said = [f"{path}: {len(file.lines)} lines"]
    said += [f"    {count} left out: {reason}" for reason, count in sorted(file.left_out.items())]
    expect(f"said of {file.name}", ran.stderr.splitlines(), said)
    expect(f"status of {file.name}", ran.returncode, 0 if file.lines else 1)
    return ran.stdout


def try_files(room):
    written, passed = "", 0
    for file in all_files():
        written += try_file(file, room, "\n")
        try_file(file, room, "\r\n")
        passed += 1
    return written, passed


def try_others(room):
    """What isn't a file of vectors."""
    paths = {name: os.path.join(room, name) for name in ("none", "other.json", "text")}
    with open(paths["other.json"], "w", encoding="ascii") as out:
        out.write('{"a": [1, 2]}')
    with open(paths["text"], "w", encoding="ascii") as out:
        out.write("nothing\n")
    expect("no words", run([sys.executable, "-B", SCRIPT]).returncode, 2)
    for path in (paths["none"], paths["other.json"], paths["text"], room):
        ran = lines_by_script(path)
        expect(f"status of {path}", (ran.returncode, ran.stdout), (1, ""))
        expect(f"what is said of {path}", ran.stderr.startswith(f"{path}: ") and "Traceback" not in ran.stderr, True)


def blocks_of(name, first):
    """The blocks of text of a document, from the one on whose first line this stands."""
    with open(os.path.join(TOP, "docs", name), encoding="utf-8") as document:
        blocks = re.findall(r"^```text\n(.*?)^```$", document.read(), re.MULTILINE | re.DOTALL)
    at = next(place for place, block in enumerate(blocks) if block.startswith(first))
    return blocks[at:]


def try_manual(room):
    """The worked file of VECTORS.md gives the lines that stand there."""
    file, lines = blocks_of("VECTORS.md", "# CAVS")[:2]
    path = os.path.join(room, "example.rsp")
    with open(path, "w", encoding="ascii") as out:
        out.write(file)
    expect("lines of the manual's file", lines_by_script(path).stdout, lines)


def try_program(launcher, written):
    """All lines pass, and the documents' reports are the program's."""
    ran = run([launcher, "vectors"], input=written)
    numbers = [number for number, line in enumerate(written.splitlines(), 1) if not line.startswith("#")]
    expect("report", ran.stdout.splitlines(), [f"{number} pass" for number in numbers] + [f"{len(numbers)} of {len(numbers)}"])
    expect("how it ended", (ran.returncode, ran.stderr), (0, ""))
    rows = ((blocks_of("INTERFACE.md", "# SHA-256, and")[:2], 1), (blocks_of("VECTORS.md", "# CAVS")[1:3], 1))
    for (lines, report), status in rows:
        ran = run([launcher, "vectors"], input=lines)
        expect("report on a document's lines", (ran.stdout, ran.returncode), (report, status))


def main(words):
    try:
        with tempfile.TemporaryDirectory() as room:
            written, passed = try_files(room)
            try_others(room)
            try_manual(room)
        said = "the program isn't built, so no line was tried by it"
        if words:
            try_program(words[0], written)
            said = "the program passes all lines"
    except (Wrong, OSError, subprocess.TimeoutExpired) as wrong:
        print(f"vector_lines: FAILED: {wrong}")
        return 1
    print(f"vector_lines: {passed} passed; {said}")
    return 0


if __name__ == "__main__":
    sys.exit(main(sys.argv[1:]))

#!/usr/bin/env python3
"""Turns files of published test vectors into the lines that `./warlinden vectors` takes: see docs/VECTORS.md.

    tools/vector_lines.py FILE.. >lines

A FILE is one of NIST's CAVP, with lines such as `Key = ..`, or one of Wycheproof, which is JSON. Of which algorithm it is, it says
itself, in its comments and fields, or its name does. Before each line stands a comment that tells where the vector is from. What no
line can say is left out, and counted on standard error by its reason.

The exit status is 0 where every file was read and gave a line, 1 where one wasn't or gave none, and 2 for no file at all.
"""
import collections
import json
import os
import re
import sys

LONGEST_LINE = 131_400
AES_KEYS = (16, 24, 32)
DIGEST_BYTES = {"256": 32, "384": 48, "512": 64}
REFUSED = "fail"


class Skip(Exception):
    """No line can say this vector, for a reason."""


class Unreadable(Exception):
    """The file is of no form that is known here."""


def need(holds, reason):
    if not holds:
        raise Skip(reason)


def unhex(word):
    try:
        return bytes.fromhex(word)
    except (ValueError, TypeError):
        raise Skip("a value that isn't whole bytes in hex") from None


# Lines. Each function answers one, or says why there is none: these are the limits of the lines that the program takes.


def spelled(name, *parts):
    words = [part if part == REFUSED else part.hex() or "-" for part in parts]
    line = " ".join([name, *words])
    need(len(line) <= LONGEST_LINE, "longer than a line may be")
    return line


def need_key(key):
    need(len(key) in AES_KEYS, "a key that AES doesn't have")


def need_within(value, low, high, what):
    need(low <= len(value) <= high, f"{what} of fewer than {low} or more than {high} bytes")


def hash_line(size, text, out):
    return spelled(f"sha{size}", text, out)


def mac_line(size, key, text, mac):
    need(len(mac) == DIGEST_BYTES[size], "a MAC that is cut")
    return spelled(f"hmac{size}", key, text, mac)


def need_gcm(key, iv, tag):
    need_key(key)
    need_within(iv, 1, 255, "an IV")
    need_within(tag, 12, 16, "a tag")


def seal_line(key, iv, aad, text, out, tag):
    need_gcm(key, iv, tag)
    return spelled("seal", key, iv, aad, text, out, tag)


def open_line(key, iv, aad, text, tag, out):
    need_gcm(key, iv, tag)
    return spelled("open", key, iv, aad, text, tag, out)


def wrap_line(pad, key, text, out):
    need_key(key)
    need_within(text, 1 if pad else 16, 64, "a text to be wrapped with padding" if pad else "a text to be wrapped")
    need(pad or len(text) % 8 == 0, "a text to be wrapped that isn't a multiple of 8 bytes")
    return spelled("wrappad" if pad else "wrap", key, text, out)


def unwrap_line(pad, key, text, out):
    need_key(key)
    need_within(text, 16 if pad else 24, 72, "a wrapping with padding" if pad else "a wrapping")
    need(len(text) % 8 == 0, "a wrapping that isn't a multiple of 8 bytes")
    return spelled("unwrappad" if pad else "unwrap", key, text, out)


def derived_line(name, key, fixed, out):
    """The fixed input is to be a label, a zero byte, a context and the length in bits: at which zero byte it is cut changes nothing."""
    need_within(out, 1, 65_536, "a derived key")
    end = (8 * len(out)).to_bytes(4, "big")
    need(fixed[-4:] == end, "fixed input that doesn't end with the length in 32 bits")
    inner = fixed[:-4]
    cuts = [at for at, byte in enumerate(inner) if byte == 0 and at <= 255 and len(inner) - at - 1 <= 255]
    need(cuts, "fixed input that has no label, zero byte and context of at most 255 bytes each")
    return spelled(name, key, inner[: cuts[0]], inner[cuts[0] + 1 :], out)


def drbg_line(entropy, nonce, personal, out):
    need_within(out, 1, 65_536, "what is drawn")
    return spelled("drbg", entropy, nonce, personal, out)


def cmac_line(key, text, mac):
    need_key(key)
    need(len(mac) == 16, "a MAC that is cut")
    return spelled("cmac", key, text, mac)


# Files of CAVP.


class Record:
    """One vector of a file: its fields in their order, those in brackets above it, and the file's comments and name."""

    def __init__(self, fields, group, file):
        self.fields, self.group, self.file = fields, group, file

    def has(self, name):
        return any(known == name for known, _ in self.fields)

    def all(self, name):
        return [value for known, value in self.fields if known == name]

    def text(self, name):
        need(self.has(name), f"without {name}")
        return self.all(name)[0]

    def bytes(self, name):
        return unhex(self.text(name))

    def number(self, name):
        digits = self.text(name)
        need(digits.isdecimal(), f"{name} that isn't a number")
        return int(digits)

    def whole_bytes(self, name, bits):
        """A value of so many bits. Where there are none, CAVP writes `00`."""
        need(bits % 8 == 0, "bits that aren't whole bytes")
        value = self.bytes(name)
        need(len(value) == bits // 8 or (bits == 0 and value == b"\0"), f"{name} of another length than is told")
        return value[: bits // 8]

    def says(self, pattern):
        """Whether the file's name or its comments have it."""
        return re.search(pattern, self.file.name + "\n" + self.file.comments, re.IGNORECASE) is not None


CavpFile = collections.namedtuple("CavpFile", "name comments")


def field_of(line):
    known, _, value = line.partition("=")
    return known.strip(), value.strip()


def regrouped(group, line):
    """What stands in brackets holds until the same name comes again. Of names without a value, as [SHA-256], the last one holds."""
    name, value = field_of(line.strip("[] "))
    if value == "":
        group = {known: told for known, told in group.items() if told}
    return {**group, name: value}


def records_of(name, text):
    """The records of a file, each with the number of its first line. A record ends at an empty line and at a bracket; lines that are
    indented tell how a value came about."""
    lines = text.split("\n")
    file, group, fields, at = CavpFile(name, "\n".join(line for line in lines if line.startswith("#"))), {}, [], 0
    for number, line in enumerate([*lines, ""], 1):
        indented, line = line[:1] in (" ", "\t"), line.strip()
        if line.startswith("#") or (indented and line):
            continue
        if line and not line.startswith("["):
            at = at if fields else number
            fields.append(field_of(line))
            continue
        if fields:
            yield at, Record(fields, group, file)
            fields = []
        if line:
            group = regrouped(group, line)


def group_number(record, name):
    value = record.group.get(name, "")
    need(value.isdecimal(), f"without a number for {name}")
    return int(value)


# Which have digests of the same lengths.
OTHER_HASHES = r"SHA-?512[/_](224|256)|SHA3|SHAKE|Keccak"


def cavp_hash(record):
    need(not record.has("Seed") and not record.has("COUNT"), "a Monte Carlo test")
    need(not record.says(OTHER_HASHES), "another algorithm")
    size = {length: size for size, length in DIGEST_BYTES.items()}.get(group_number(record, "L"))
    need(size, "another algorithm")
    return [hash_line(size, record.whole_bytes("Msg", record.number("Len")), record.bytes("MD"))]


def cavp_mac(record):
    size = {length: size for size, length in DIGEST_BYTES.items()}.get(group_number(record, "L"))
    need(size and not record.says(OTHER_HASHES), "another algorithm")
    return [mac_line(size, record.whole_bytes("Key", 8 * record.number("Klen")), record.bytes("Msg"), record.bytes("Mac"))]


def is_refusal(record):
    return record.has("FAIL") or any(result.upper().startswith("F") for result in record.all("Result"))


def is_opening(record):
    """A file of openings has the ciphertext before the text, or FAIL in its place."""
    names = [name for name, _ in record.fields]
    return is_refusal(record) or ("PT" in names and names.index("CT") < names.index("PT"))


def cavp_gcm(record):
    need(not record.has("Salt") and "Saltlen" not in record.group, "another algorithm")
    key, iv, aad, ciphertext, tag = (record.bytes(name) for name in ("Key", "IV", "AAD", "CT", "Tag"))
    if is_opening(record):
        return [open_line(key, iv, aad, ciphertext, tag, REFUSED if is_refusal(record) else record.bytes("PT"))]
    return [seal_line(key, iv, aad, record.bytes("PT"), ciphertext, tag)]


def cavp_wrap(record):
    need(not record.says(r"TKW|TDEA|TDES"), "another algorithm")
    need(not record.says(r"inverse|_inv\b"), "wrapping by AES's inverse")
    need(record.says(r"KWP?[-_]A[ED]"), "a wrapping of which neither name nor comments tell whether it is KW or KWP")
    pad = record.says(r"KWP[-_]A[ED]")
    key, ciphertext = record.bytes("K"), record.bytes("C")
    names = [name for name, _ in record.fields]
    if is_refusal(record):
        return [unwrap_line(pad, key, ciphertext, REFUSED)]
    if names.index("C") < names.index("P"):
        return [unwrap_line(pad, key, ciphertext, record.bytes("P"))]
    return [wrap_line(pad, key, record.bytes("P"), ciphertext)]


def cavp_derivation(record):
    need(not record.has("IV") and not record.says("feedback|pipeline"), "another mode than with a counter alone")
    prf = record.group.get("PRF", "").upper()
    name = "derive" if prf == "HMAC_SHA256" else "kbcounter" if prf.startswith("CMAC_AES") else None
    need(name, "another algorithm")
    need(record.group.get("RLEN", "").upper() == "32_BITS", "a counter of other than 32 bits")
    need(record.group.get("CTRLOCATION", "").upper() == "BEFORE_FIXED", "a counter that doesn't stand before the fixed input")
    key, out = record.bytes("KI"), record.whole_bytes("KO", record.number("L"))
    if name == "kbcounter":
        need_key(key)
    return [derived_line(name, key, record.whole_bytes("FixedInputData", 8 * record.number("FixedInputDataByteLen")), out)]


def cavp_drbg(record):
    need("SHA-256" in record.group and not record.says(r"HASH_?DRBG|CTR_?DRBG"), "another algorithm")
    need(record.says(r"HMAC_?DRBG"), "a generator of which neither name nor comments tell that it is HMAC_DRBG")
    need(record.group.get("PredictionResistance", "False") == "False", "prediction resistance")
    need(not record.has("EntropyInputReseed"), "a reseed")
    requests = record.all("AdditionalInput")
    need(len(requests) < 2, "two requests, of which the second's bytes are told")
    need(len(requests) == 1, "without AdditionalInput, which would tell how many requests there are")
    need(requests[0] == "", "additional input")
    entropy, nonce, personal = (record.bytes(name) for name in ("EntropyInput", "Nonce", "PersonalizationString"))
    return [drbg_line(entropy, nonce, personal, record.bytes("ReturnedBits"))]


def cavp_cmac(record):
    need(record.has("Key"), "another algorithm")
    need(not record.says(r"TDES|TDEA"), "another algorithm")
    need(not is_refusal(record), "a MAC that is to be refused")
    return [cmac_line(record.bytes("Key"), record.whole_bytes("Msg", 8 * record.number("Mlen")), record.bytes("Mac"))]


# How a record of each form is known, by the fields that it has; the first that fits is taken.
CAVP = (
    (("Msg", "MD"), cavp_hash),
    (("Seed",), cavp_hash),
    (("COUNT", "MD"), cavp_hash),
    (("Mlen", "Mac"), cavp_cmac),
    (("Klen", "Tlen", "Mac"), cavp_mac),
    (("IV", "CT", "Tag"), cavp_gcm),
    (("K", "C"), cavp_wrap),
    (("KI", "KO"), cavp_derivation),
    (("EntropyInput", "ReturnedBits"), cavp_drbg),
)


def cavp_lines(record):
    for names, lines in CAVP:
        if all(record.has(name) for name in names):
            return lines(record)
    raise Skip("fields of no form that is known here")


def where_in_cavp(at, record):
    count = [f"{name} {value}" for name, value in record.fields if name.upper() == "COUNT"]
    return ", ".join([record.file.name, f"line {at}", *count])


def read_cavp(name, text):
    for at, record in records_of(name, text):
        yield where_in_cavp(at, record), cavp_lines, record


# Files of Wycheproof. A valid vector is tried both ways, one that isn't is to be refused.


def bytes_at(test, *names):
    need(all(name in test for name in names), "without " + " or ".join(name for name in names if name not in test))
    return [unhex(test[name]) for name in names]


def need_sure(test):
    need(test.get("result") in ("valid", "invalid"), "a result that is neither valid nor invalid")
    return test["result"] == "valid"


def wycheproof_gcm(test):
    is_valid = need_sure(test)
    key, iv, aad, text, ciphertext, tag = bytes_at(test, "key", "iv", "aad", "msg", "ct", "tag")
    if not is_valid:
        return [open_line(key, iv, aad, ciphertext, tag, REFUSED)]
    return [seal_line(key, iv, aad, text, ciphertext, tag), open_line(key, iv, aad, ciphertext, tag, text)]


def wycheproof_wrap(pad):
    def lines(test):
        is_valid = need_sure(test)
        key, text, ciphertext = bytes_at(test, "key", "msg", "ct")
        if not is_valid:
            return [unwrap_line(pad, key, ciphertext, REFUSED)]
        return [wrap_line(pad, key, text, ciphertext), unwrap_line(pad, key, ciphertext, text)]

    return lines


def wycheproof_mac(line):
    def lines(test):
        need(need_sure(test), "a MAC that is to be refused")
        return [line(*bytes_at(test, "key", "msg", "tag"))]

    return lines


WYCHEPROOF = {
    "AES-GCM": wycheproof_gcm,
    "KW": wycheproof_wrap(False),
    "AES-WRAP": wycheproof_wrap(False),
    "AES-KW": wycheproof_wrap(False),
    "KWP": wycheproof_wrap(True),
    "AES-KWP": wycheproof_wrap(True),
    "AES-CMAC": wycheproof_mac(cmac_line),
    **{f"HMACSHA{size}": wycheproof_mac(lambda *parts, size=size: mac_line(size, *parts)) for size in DIGEST_BYTES},
}


def another_algorithm(test):
    raise Skip("another algorithm")


def read_wycheproof(name, text):
    try:
        content = json.loads(text)
        groups = content["testGroups"]
        lines = WYCHEPROOF.get(content["algorithm"].upper(), another_algorithm)
    except (ValueError, KeyError, TypeError, AttributeError):
        raise Unreadable("it is JSON, and no file of Wycheproof") from None
    for group in groups:
        for test in group.get("tests", []):
            yield f"{name}, tcId {test.get('tcId')}", lines, test


# The whole.


def vectors_of(path):
    """Each vector of a file: where it stands, the function that answers its lines, and what that is given."""
    try:
        with open(path, encoding="utf-8", errors="replace", newline="\n") as file:
            text = file.read()
    except OSError as fault:
        raise Unreadable(fault.strerror) from None
    read = read_wycheproof if text.lstrip()[:1] == "{" else read_cavp
    name = os.path.basename(path).replace("\n", " ").encode("ascii", "backslashreplace").decode("ascii")
    return read(name, text)


def write_lines(path, skipped):
    """Writes the lines of a file, counts what is skipped, and answers how many lines there are."""
    written = 0
    for where, lines_of, vector in vectors_of(path):
        try:
            made = lines_of(vector)
        except Skip as skip:
            skipped[str(skip)] += 1
            continue
        for line in made:
            print(f"# {where}\n{line}")
        written += len(made)
    return written


def main(paths):
    if not paths or any(path.startswith("-") for path in paths):
        print(__doc__, file=sys.stderr, end="")
        return 2
    status = 0
    for path in paths:
        skipped = collections.Counter()
        try:
            written = write_lines(path, skipped)
        except Unreadable as fault:
            print(f"{path}: {fault}", file=sys.stderr)
            status = 1
            continue
        print(f"{path}: {written} lines", file=sys.stderr)
        for reason, count in sorted(skipped.items()):
            print(f"    {count} left out: {reason}", file=sys.stderr)
        if not written:
            status = 1
    return status


if __name__ == "__main__":
    try:
        sys.exit(main(sys.argv[1:]))
    except BrokenPipeError:
        # so that Python doesn't complain as it ends
        os.dup2(os.open(os.devnull, os.O_WRONLY), sys.stdout.fileno())
        sys.exit(1)

"""An independent model of vector lines: what each passes by, and the report. It is written from their description and not from the
sources, over hashlib, hmac and the package `cryptography` (see machine_functions.py).

    python3 checks/machine_vectors.py     compares CMAC's key derivation with what `cryptography` and openssl have of it
"""
import subprocess

from cryptography.hazmat.primitives.ciphers.algorithms import AES
from cryptography.hazmat.primitives.cmac import CMAC

import machine_functions as functions
from machine_lines import BAD_LINE, BadLine, bad_line, is_comment, lines_of, need, some_bytes

ALL_PASSED, SOME_FAILED = 0, 1
CMAC_BLOCK = 16
# What stands for a refusal in place of the expected bytes.
REFUSAL = None


# Readers of one word.


def sized(lengths):
    def reader(word):
        read = some_bytes(word)
        need(len(read) in lengths)
        return read

    return reader


def bytes_or_fail(word):
    return REFUSAL if word == b"fail" else some_bytes(word)


cipher_key = sized((16, 24, 32))
iv = sized(range(1, 256))
tag = sized(range(12, 17))
message = sized(range(65_665))
input_part = sized(range(256))
derived_bytes = sized(range(1, 65_537))
key_to_wrap = sized(range(16, 65, 8))
key_to_pad = sized(range(1, 65))
wrapped_key = sized(range(24, 73, 8))
padded_key = sized(range(16, 73, 8))


# What passes.


def hashes_to(alg):
    return lambda text, out: functions.hash_of(alg, text) == out


def macs_to(alg):
    return lambda key, text, out: functions.hmac(alg, key, text) == out


def seals_to(key, iv, aad, text, out, tag):
    ciphertext, whole = functions.gcm_seal(key, iv, aad, text)
    return ciphertext == out and whole[: len(tag)] == tag


def opens_to(key, iv, aad, text, tag, out):
    return functions.gcm_open(key, iv, aad, text, tag) == out


def wraps_to(pad):
    return lambda key, text, out: functions.wrap(pad, key, text) == out


def unwraps_to(pad):
    return lambda key, text, out: functions.unwrap(pad, key, text) == out


def derives(key, label, context, out):
    return functions.derive(key, label, context, len(out)) == out


def generates(entropy, nonce, personal, out):
    generator = functions.instantiate(entropy, nonce, personal)
    return functions.generate(b"", generator, len(out))[0] == out


def cmac(key, text):
    mac = CMAC(AES(key))
    mac.update(text)
    return mac.finalize()


# Key derivation over CMAC (SP 800-108): the blocks of each mode.


def counted(i):
    return i.to_bytes(4, "big")


def counter_mode(key, fixed, count):
    return [cmac(key, counted(i) + fixed) for i in range(1, count + 1)]


def feedback_mode(key, fixed, count):
    blocks, last = [], b""
    for i in range(1, count + 1):
        last = cmac(key, last + counted(i) + fixed)
        blocks.append(last)
    return blocks


def pipeline_mode(key, fixed, count):
    blocks, chained = [], fixed
    for i in range(1, count + 1):
        chained = cmac(key, chained)
        blocks.append(cmac(key, chained + counted(i) + fixed))
    return blocks


def derived_by(mode, key, label, context, length):
    fixed = label + b"\0" + context + (8 * length).to_bytes(4, "big")
    return b"".join(mode(key, fixed, (length + CMAC_BLOCK - 1) // CMAC_BLOCK))[:length]


def derives_by(mode):
    return lambda key, label, context, out: derived_by(mode, key, label, context, len(out)) == out


CMAC_DERIVATION = (cipher_key, input_part, input_part, derived_bytes)

# For each first word the readers of the words behind it, and whether what they read passes.
VECTORS = {
    b"sha256": ((some_bytes, some_bytes), hashes_to(1)),
    b"sha384": ((some_bytes, some_bytes), hashes_to(2)),
    b"sha512": ((some_bytes, some_bytes), hashes_to(3)),
    b"hmac256": ((some_bytes, some_bytes, some_bytes), macs_to(1)),
    b"hmac384": ((some_bytes, some_bytes, some_bytes), macs_to(2)),
    b"hmac512": ((some_bytes, some_bytes, some_bytes), macs_to(3)),
    b"seal": ((cipher_key, iv, message, message, some_bytes, tag), seals_to),
    b"open": ((cipher_key, iv, message, message, tag, bytes_or_fail), opens_to),
    b"wrap": ((cipher_key, key_to_wrap, some_bytes), wraps_to(False)),
    b"unwrap": ((cipher_key, wrapped_key, bytes_or_fail), unwraps_to(False)),
    b"wrappad": ((cipher_key, key_to_pad, some_bytes), wraps_to(True)),
    b"unwrappad": ((cipher_key, padded_key, bytes_or_fail), unwraps_to(True)),
    b"derive": ((some_bytes, input_part, input_part, derived_bytes), derives),
    b"drbg": ((some_bytes, some_bytes, some_bytes, derived_bytes), generates),
    b"cmac": ((cipher_key, some_bytes, some_bytes), lambda key, text, out: cmac(key, text) == out),
    b"kbcounter": (CMAC_DERIVATION, derives_by(counter_mode)),
    b"kbfeedback": (CMAC_DERIVATION, derives_by(feedback_mode)),
    b"kbpipeline": (CMAC_DERIVATION, derives_by(pipeline_mode)),
}


def passes(line):
    """Whether a line passes; none for a comment."""
    if is_comment(line):
        return None
    first, *words = line.split(b" ")
    need(first in VECTORS)
    readers, holds = VECTORS[first]
    need(len(words) == len(readers))
    return holds(*[reader(word) for reader, word in zip(readers, words)])


def report(stream, ended=True):
    """The status and the report of the lines of an input. Where it may go on, what stands behind the last LF is no line yet."""
    written, passed, checked = b"", 0, 0
    for number, line in enumerate(lines_of(stream) if ended else stream.split(b"\n")[:-1], 1):
        try:
            result = passes(line)
        except BadLine:
            return BAD_LINE, written + bad_line(number)
        if result is None:
            continue
        checked += 1
        passed += result
        written += f"{number} {'pass' if result else 'fail'}\n".encode()
    return SOME_FAILED if passed < checked else ALL_PASSED, written + f"{passed} of {checked}\n".encode()


def openssl_feedback(key, label, context, length):
    """What `openssl kdf` derives."""
    options = ["mac:CMAC", "cipher:AES-128-CBC", "mode:FEEDBACK", f"hexkey:{key.hex()}", f"hexsalt:{label.hex()}", f"hexinfo:{context.hex()}"]
    words = [word for option in options for word in ("-kdfopt", option)]
    asked = ["openssl", "kdf", "-binary", "-keylen", str(length), *words, "KBKDF"]
    return subprocess.run(asked, check=True, stdout=subprocess.PIPE).stdout


def compare():
    from cryptography.hazmat.primitives.kdf.kbkdf import KBKDFCMAC, CounterLocation, Mode

    functions.compare()
    key, label, context = bytes(range(16)), b"label", bytes(range(64))
    for length in (1, 15, 16, 17, 255, 4_096):
        theirs = KBKDFCMAC(AES, Mode.CounterMode, length, 4, 4, CounterLocation.BeforeFixed, label, context, None)
        assert derived_by(counter_mode, key, label, context, length) == theirs.derive(key)
        assert derived_by(feedback_mode, key, label, context, length) == openssl_feedback(key, label, context, length)
    print("rows: checks/machine_vectors.py: derivation over CMAC answers as cryptography and openssl do")


if __name__ == "__main__":
    compare()

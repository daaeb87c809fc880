"""The standards' functions as the model of the module uses them: hashlib, hmac and the package `cryptography`, and what these
two lack: GCM with an IV of any length (SP 800-38D), HMAC_DRBG (SP 800-90A Rev. 1, 10.1.2) and KBKDF in counter mode (SP 800-108).

    python3 checks/machine_functions.py     compares these with `cryptography` where it has them too
"""
import hashlib
import hmac as hmac_of_python
from collections import namedtuple

from cryptography.hazmat.primitives import keywrap
from cryptography.hazmat.primitives.ciphers import Cipher, algorithms, modes

HASHES = {1: "sha256", 2: "sha384", 3: "sha512"}
BLOCK = 16
TAG = 16


def hash_of(alg, text):
    return hashlib.new(HASHES[alg], text).digest()


def hmac(alg, key, text):
    return hmac_of_python.new(key, text, HASHES[alg]).digest()


def aes(key, blocks):
    """Each block encrypted by itself."""
    encryptor = Cipher(algorithms.AES(key), modes.ECB()).encryptor()
    return encryptor.update(blocks) + encryptor.finalize()


def xor(left, right):
    return bytes(a ^ b for a, b in zip(left, right))


def padded(text):
    return text + bytes(-len(text) % BLOCK)


def multiples(h):
    """H times x^0 to x^127: a product by x shifts right, and adds R where a one fell out."""
    found = []
    for _ in range(128):
        found.append(h)
        h = (h >> 1) ^ (0xE1 << 120 if h & 1 else 0)
    return found


def ghash(h, text):
    """GHASH (SP 800-38D, 6.4) of whole blocks."""
    found = multiples(int.from_bytes(h, "big"))
    total = 0
    for start in range(0, len(text), BLOCK):
        value = total ^ int.from_bytes(text[start : start + BLOCK], "big")
        total = 0
        for place, multiple in enumerate(found):
            if value >> (127 - place) & 1:
                total ^= multiple
    return total.to_bytes(BLOCK, "big")


def gctr(key, start, text):
    """GCTR (6.5) from a block, of which the last 32 bits count."""
    first = int.from_bytes(start[12:], "big")
    counters = range(first, first + (len(text) + BLOCK - 1) // BLOCK)
    blocks = b"".join(start[:12] + (counter % 2**32).to_bytes(4, "big") for counter in counters)
    return xor(aes(key, blocks), text)


def bit_length(text):
    return (8 * len(text)).to_bytes(8, "big")


def first_block(key, iv):
    """J0 (7.1, step 2)."""
    if len(iv) == 12:
        return iv + bytes([0, 0, 0, 1])
    return ghash(aes(key, bytes(BLOCK)), padded(iv) + bytes(8) + bit_length(iv))


def next_block(block):
    return block[:12] + ((int.from_bytes(block[12:], "big") + 1) % 2**32).to_bytes(4, "big")


def gcm_tag(key, iv, aad, ciphertext):
    lengths = bit_length(aad) + bit_length(ciphertext)
    s = ghash(aes(key, bytes(BLOCK)), padded(aad) + padded(ciphertext) + lengths)
    return gctr(key, first_block(key, iv), s)


def gcm_seal(key, iv, aad, text):
    """The ciphertext and the whole tag."""
    ciphertext = gctr(key, next_block(first_block(key, iv)), text)
    return ciphertext, gcm_tag(key, iv, aad, ciphertext)


def gcm_open(key, iv, aad, ciphertext, tag):
    """The text; None where the tag isn't the leftmost part of the ciphertext's."""
    if gcm_tag(key, iv, aad, ciphertext)[: len(tag)] != tag:
        return None
    return gctr(key, next_block(first_block(key, iv)), ciphertext)


def wrap(pad, kek, text):
    """KW and, with padding, KWP (SP 800-38F)."""
    return (keywrap.aes_key_wrap_with_padding if pad else keywrap.aes_key_wrap)(kek, text)


def unwrap(pad, kek, wrapped):
    """What has this wrapping; None where nothing has."""
    try:
        return (keywrap.aes_key_unwrap_with_padding if pad else keywrap.aes_key_unwrap)(kek, wrapped)
    except keywrap.InvalidUnwrap:
        return None


Generator = namedtuple("Generator", "k v counter")


def updated(k, v, data):
    for mark in (b"\0", b"\1") if data else (b"\0",):
        k = hmac(1, k, v + mark + data)
        v = hmac(1, k, v)
    return k, v


def instantiate(entropy, nonce, personal):
    return Generator(*updated(bytes(32), b"\1" * 32, entropy + nonce + personal), 1)


def reseed(entropy, additional, generator):
    return Generator(*updated(generator.k, generator.v, entropy + additional), 1)


def generate(additional, generator, count):
    """So many bytes, and the generator after it."""
    k, v = generator.k, generator.v
    if additional:
        k, v = updated(k, v, additional)
    out = b""
    while len(out) < count:
        v = hmac(1, k, v)
        out += v
    return out[:count], Generator(*updated(k, v, additional), generator.counter + 1)


def derive(key, label, context, count):
    fixed = label + b"\0" + context + (8 * count).to_bytes(4, "big")
    blocks = range(1, count // 32 + 2)
    return b"".join(hmac(1, key, block.to_bytes(4, "big") + fixed) for block in blocks)[:count]


def compare():
    """With `cryptography`, where it has the same function."""
    from cryptography.hazmat.primitives import hashes
    from cryptography.hazmat.primitives.ciphers.aead import AESGCM
    from cryptography.hazmat.primitives.kdf.kbkdf import KBKDFHMAC, CounterLocation, Mode

    text = bytes(k % 251 for k in range(70_000))
    for size in (16, 24, 32):
        for iv, aad, body in ((12, 0, 0), (8, 1, 15), (12, 16, 33), (16, 31, 4096), (128, 65, 70_000)):
            ciphertext, tag = gcm_seal(text[:size], text[:iv], text[:aad], text[:body])
            assert ciphertext + tag == AESGCM(text[:size]).encrypt(text[:iv], text[:body], text[:aad])
            assert gcm_open(text[:size], text[:iv], text[:aad], ciphertext, tag[:12]) == text[:body]
    for count in (1, 31, 32, 33, 64):
        theirs = KBKDFHMAC(hashes.SHA256(), Mode.CounterMode, count, 4, 4, CounterLocation.BeforeFixed, b"l", b"c", None)
        assert derive(text[:32], b"l", b"c", count) == theirs.derive(text[:32])
    print("rows: checks/machine_functions.py: GCM and KBKDF answer as cryptography does")


if __name__ == "__main__":
    compare()

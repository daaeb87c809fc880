"""What algorithms make of a key and keep for a while, for residue.py: computed from the standards' texts with Python's own library.

    python3 checks/residue_traces.py     compares these with examples of the standards and with hashlib
"""
import hashlib
import hmac


def in_units(found, unit):
    """The same bytes with the order turned within each unit, as a processor stores words."""
    whole = len(found) - len(found) % unit
    return b"".join(found[place : place + unit][::-1] for place in range(0, whole, unit)) if unit > 1 else found


def doubled(byte):
    return byte << 1 ^ (0x11B if byte & 0x80 else 0)


def s_box():
    """The table of FIPS 197, section 5.1.1, by powers of 3 and of its inverse."""
    table, power, inverse = [0x63] * 256, 1, 1
    for _ in range(255):
        power ^= doubled(power)
        for shift in (1, 2, 4):
            inverse ^= inverse << shift & 0xFF
        inverse ^= 0x09 if inverse & 0x80 else 0
        turned = [(inverse << shift | inverse >> 8 - shift) & 0xFF for shift in range(5)]
        table[power] = turned[0] ^ turned[1] ^ turned[2] ^ turned[3] ^ turned[4] ^ 0x63
    return bytes(table)


S_BOX = s_box()


def round_keys(key):
    """The words of FIPS 197, section 5.2, one behind the other."""
    count = len(key) // 4
    words, constant = [key[4 * k : 4 * k + 4] for k in range(count)], 1
    for place in range(count, 4 * (count + 7)):
        word = words[-1]
        if place % count == 0:
            word = word[1:] + word[:1]
        if place % count == 0 or (count == 8 and place % count == 4):
            word = word.translate(S_BOX)
        if place % count == 0:
            word, constant = bytes([word[0] ^ constant]) + word[1:], doubled(constant)
        words.append(xor(word, words[-count]))
    return b"".join(words)


def xor(left, right):
    return bytes(a ^ b for a, b in zip(left, right))


def mixed(column):
    """MIXCOLUMNS() of one column (section 5.1.3)."""
    total = column[0] ^ column[1] ^ column[2] ^ column[3]
    return bytes(column[k] ^ total ^ doubled(column[k] ^ column[(k + 1) % 4]) for k in range(4))


def subkey(key):
    """GCM's hash subkey (SP 800-38D): the block of zeros, enciphered (FIPS 197, section 5.1)."""
    keys = round_keys(key)
    state = keys[:16]
    for place in range(16, len(keys), 16):
        state = state.translate(S_BOX)
        state = bytes(state[(k + 4 * (k % 4)) % 16] for k in range(16))
        if place + 16 < len(keys):
            state = b"".join(mixed(state[k : k + 4]) for k in range(0, 16, 4))
        state = xor(state, keys[place : place + 16])
    return state


def multiples(h):
    """The products of H with x^0 to x^127 (SP 800-38D, 6.3), which tables are made of."""
    number = int.from_bytes(h, "big")
    for _ in range(128):
        yield number.to_bytes(16, "big")
        number = number >> 1 ^ (0xE1 << 120 if number & 1 else 0)


def root(number, power):
    """The largest number whose power isn't above this one."""
    low, high = 0, 1 << number.bit_length() // power + 1
    while low + 1 < high:
        middle = (low + high) // 2
        low, high = (middle, high) if middle**power <= number else (low, middle)
    return low


PRIMES = [n for n in range(2, 410) if all(n % k for k in range(2, int(n**0.5) + 1))]


class Hash:
    """The compression of FIPS 180-4: bits of a word, rounds, the amounts of its rotations and shifts, and the primes that it begins with."""

    def __init__(self, bits, rounds, amounts, primes):
        self.bits, self.mask, self.amounts = bits, (1 << bits) - 1, amounts
        self.constants = [root(p << 3 * bits, 3) & self.mask for p in PRIMES[:rounds]]
        self.start = [root(p << 2 * bits, 2) & self.mask for p in primes]

    def rotated(self, word, amounts, shift=None):
        total = 0 if shift is None else word >> shift
        for amount in amounts:
            total ^= (word >> amount | word << self.bits - amount) & self.mask
        return total

    def schedule(self, block):
        size = self.bits // 8
        words = [int.from_bytes(block[k : k + size], "big") for k in range(0, 16 * size, size)]
        for place in range(16, len(self.constants)):
            early, late = words[place - 15], words[place - 2]
            total = words[place - 16] + self.rotated(early, *self.amounts[2]) + words[place - 7] + self.rotated(late, *self.amounts[3])
            words.append(total & self.mask)
        return words

    def compressed(self, state, block):
        a, b, c, d, e, f, g, h = state
        for constant, word in zip(self.constants, self.schedule(block)):
            first = h + self.rotated(e, self.amounts[1]) + (e & f ^ ~e & self.mask & g) + constant + word
            second = self.rotated(a, self.amounts[0]) + (a & b ^ a & c ^ b & c)
            a, b, c, d, e, f, g, h = (first + second) & self.mask, a, b, c, (d + first) & self.mask, e, f, g
        return [x + y & self.mask for x, y in zip(state, (a, b, c, d, e, f, g, h))]

    def words(self, numbers):
        return b"".join(number.to_bytes(self.bits // 8, "big") for number in numbers)

    def traces(self, block):
        """What a hash makes of its first block and keeps: its schedule, and its state behind the block."""
        yield self.words(self.schedule(block))
        yield self.words(self.compressed(self.start, block))


SMALL = ((2, 13, 22), (6, 11, 25), ((7, 18), 3), ((17, 19), 10))
LARGE = ((28, 34, 39), (14, 18, 41), ((1, 8), 7), ((19, 61), 6))
SHA256 = Hash(32, 64, SMALL, PRIMES[:8])
SHA384 = Hash(64, 80, LARGE, PRIMES[8:16])
SHA512 = Hash(64, 80, LARGE, PRIMES[:8])


def padded_blocks(key):
    """The key under HMAC's two pads, and what each hash makes of the blocks that begin with these."""
    for pad in (0x36, 0x5C):
        padded = bytes(byte ^ pad for byte in key)
        yield padded
        for it, size in ((SHA256, 64), (SHA384, 128), (SHA512, 128)):
            yield from it.traces(padded + bytes([pad]) * (size - len(key)))


class Generator:
    """HMAC_DRBG with SHA-256 (SP 800-90A Rev. 1, 10.1.2) with no additional input."""

    def __init__(self, entropy, nonce):
        self.k, self.v = bytes(32), bytes([1]) * 32
        self.update(entropy + nonce)

    def update(self, provided):
        for number in (0, 1) if provided else (0,):
            self.k = self.mac(self.v + bytes([number]) + provided)
            self.v = self.mac(self.v)

    def mac(self, text):
        return hmac.new(self.k, text, "sha256").digest()

    def generate(self, length):
        drawn = b""
        while len(drawn) < length:
            self.v = self.mac(self.v)
            drawn += self.v
        self.update(b"")
        return drawn[:length]


def compare():
    key = bytes.fromhex("2b7e151628aed2a6abf7158809cf4f3c")
    # FIPS 197, A.1 and A.3, the last words
    assert round_keys(key)[-4:].hex() == "b6630ca6"
    assert round_keys(bytes.fromhex("603deb1015ca71be2b73aef0857d77811f352c073b6108d72d9810a30914dff4"))[-4:].hex() == "706c631e"
    # the GCM specification's test cases 2 and 14
    assert subkey(bytes(16)).hex() == "66e94bd4ef8a2c3b884cfa59ca342b2e"
    assert subkey(bytes(32)).hex() == "dc95c078a2408989ad48a21492842087"
    text = b"abc"
    for it, name in ((SHA256, "sha256"), (SHA384, "sha384"), (SHA512, "sha512")):
        size = it.bits * 2
        block = text + b"\x80" + bytes(size - 5) + bytes([8 * len(text)])
        digest = hashlib.new(name, text).digest()
        assert it.words(it.compressed(it.start, block))[: len(digest)] == digest
    print("residue_traces: as in the standards")


if __name__ == "__main__":
    compare()

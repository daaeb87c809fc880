#!/usr/bin/env python3
"""Derives the nibble tables of crates/aes_lanes/src/tables.rt in GF((2^4)^2), and checks them at all 256 bytes.

A byte of the AES field is k + i*s over GF(2^4), where s^2 + a*s + a = 0. With j = i + k,
    p = 1/(1/i + a/k) + j      1/p = (k + a*i)/n
    q = 1/(1/j + a/k) + i      1/q = (k + a*i + a*k)/n        n = k^2 + a*i*k + a*i^2
so the inverse (k + a*i)/n + (i/n)*s is linear in 1/p and 1/q. Division by 0 gives 'infinity', a
nibble with the top bit set, which a byte shuffle reads as 0.
"""

def mul(a, b, poly=0x11b, top=0x100):
    r = 0
    while b:
        if b & 1:
            r ^= a
        a <<= 1
        if a & top:
            a ^= poly
        b >>= 1
    return r

def inv(x):
    return next((y for y in range(256) if mul(x, y) == 1), 0)

def sbox(x):
    b = inv(x)
    return b ^ rot(b, 1) ^ rot(b, 2) ^ rot(b, 3) ^ rot(b, 4) ^ 0x63

def rot(b, n):
    return ((b << n) | (b >> (8 - n))) & 0xff

SBOX = [sbox(x) for x in range(256)]
assert SBOX[:4] == [0x63, 0x7c, 0x77, 0x7b] and SBOX[0x53] == 0xed

# GF(2^4) inside the AES field: the roots of x^16 = x
def power(x, n):
    r = 1
    for _ in range(n):
        r = mul(r, x)
    return r

SUB = sorted(x for x in range(256) if power(x, 16) == x)
assert len(SUB) == 16
# a nibble basis: powers of the least generator g with g^4 + g + 1 = 0
G = next(x for x in SUB if power(x, 4) ^ x ^ 1 == 0)
BASIS = [power(G, e) for e in range(4)]

def elem(n):  # nibble -> element of the subfield
    r = 0
    for b in range(4):
        if n >> b & 1:
            r ^= BASIS[b]
    return r

ELEM = [elem(n) for n in range(16)]
assert sorted(ELEM) == SUB
NIB = {e: n for n, e in enumerate(ELEM)}

# least a and s, s outside the subfield, with s^2 + a*s + a = 0
A, S = next((a, s) for a in SUB[1:] for s in range(256)
            if s not in SUB and mul(s, s) ^ mul(a, s) ^ a == 0)

def to_field(v):  # tower byte: high nibble i, low nibble k
    return ELEM[v & 15] ^ mul(ELEM[v >> 4], S)

FROM = [to_field(v) for v in range(256)]
TO = {f: v for v, f in enumerate(FROM)}
assert len(TO) == 256
TO = [TO[f] for f in range(256)]

INF = 0x80
INV = [INF] + [NIB[inv(ELEM[n])] for n in range(1, 16)]
OVER = [INF] + [NIB[mul(A, inv(ELEM[n]))] for n in range(1, 16)]

def read(t, i):
    assert i < 16 or i >= 128
    return 0 if i >= 128 else t[i]

def halves(v):
    i, k = v >> 4, v & 15
    j = i ^ k
    over = read(OVER, k)
    p = read(INV, read(INV, i) ^ over) ^ j
    q = read(INV, read(INV, j) ^ over) ^ i
    return p, q

# inverse from u = 1/p and w = 1/q:  (k + a i)/n = u,  a k/n = u + w,  i/n = (u + k/n)/a
def inverse_of(u, w):
    kn = mul(u ^ w, inv(A))
    in_ = mul(u ^ kn, inv(A))
    return u ^ mul(in_, S)

def linear(x):  # the affine map without its constant
    return x ^ rot(x, 1) ^ rot(x, 2) ^ rot(x, 3) ^ rot(x, 4)

def out(f):
    """two tables: f of the inverse, at p and at q, where f is linear"""
    def entry(n, first):
        if n == 0:  # 1/0 is flagged by INF; a plain 0 is never read
            return 0
        r = inv(ELEM[n])
        return f(inverse_of(r, 0) if first else inverse_of(0, r))
    return [entry(n, True) for n in range(16)], [entry(n, False) for n in range(16)]

IN_LOW = [TO[n] for n in range(16)]
IN_HIGH = [TO[n << 4] for n in range(16)]
TWICE_P, TWICE_Q = out(lambda x: TO[mul(2, linear(x))])
LAST_P, LAST_Q = out(linear)

for x in range(256):
    v = IN_LOW[x & 15] ^ IN_HIGH[x >> 4]
    assert v == TO[x]
    p, q = halves(v)
    assert read(TWICE_P, p) ^ read(TWICE_Q, q) == TO[mul(2, SBOX[x] ^ 0x63)]
    assert read(LAST_P, p) ^ read(LAST_Q, q) ^ 0x63 == SBOX[x]
    # the constant, moved into the next round key, passes MixColumns
assert mul(2, 0x63) ^ mul(3, 0x63) ^ 0x63 ^ 0x63 == 0x63

def unlinear(x):  # the linear map of the inverse of the affine map (FIPS 197, section 5.3.2)
    return rot(x, 1) ^ rot(x, 3) ^ rot(x, 6)

# into the tower by way of the inverse of the affine map, whose constant 0x05 stands in the first table
UNSUB_LOW = [TO[unlinear(n) ^ 0x05] for n in range(16)]
UNSUB_HIGH = [TO[unlinear(n << 4)] for n in range(16)]
INVERSE_P, INVERSE_Q = out(lambda x: x)

for x in range(256):
    p, q = halves(UNSUB_LOW[x & 15] ^ UNSUB_HIGH[x >> 4])
    assert SBOX[read(INVERSE_P, p) ^ read(INVERSE_Q, q)] == x

THRICE_P, THRICE_Q = out(lambda x: TO[mul(3, linear(x))])

TABLES = dict(IN_LOW=IN_LOW, IN_HIGH=IN_HIGH, INV=INV, OVER=OVER, TWICE_P=TWICE_P, TWICE_Q=TWICE_Q,
              THRICE_P=THRICE_P, THRICE_Q=THRICE_Q, LAST_P=LAST_P, LAST_Q=LAST_Q,
              UNSUB_LOW=UNSUB_LOW, UNSUB_HIGH=UNSUB_HIGH, INVERSE_P=INVERSE_P, INVERSE_Q=INVERSE_Q)
for k in (9, 11, 13, 14):  # multiples of a byte, by its nibbles
    TABLES[f"TIMES_{k}_LOW"] = [mul(k, n) for n in range(16)]
    TABLES[f"TIMES_{k}_HIGH"] = [mul(k, n << 4) for n in range(16)]

if __name__ == "__main__":
    print(f"# g={G:#x} a={A:#x} s={S:#x}")
    for name, t in TABLES.items():
        print(f"# {name}")
        print(f"const {name}: [u8; {len(t)}] = [" + ", ".join(f"0x{x:02x}" for x in t) + "];")

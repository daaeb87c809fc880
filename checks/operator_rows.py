#!/usr/bin/env python3
"""Writes the lines of the tests of operator_text, and the commands that the good ones spell, by Python alone.

    python3 checks/operator_rows.py > crates/operator_text/src/line_rows.rt
    (cd crates/operator_text && rt fmt)

A row of a good line is the line, the number of its service, and the command's body. The bad lines are good ones with one
mistake each.
"""


def quad(number):
    return number.to_bytes(4, "big")


AES, KEK, MAC, KDF = 1, 2, 3, 4
GOOD = [
    ("poweron 0", 0x01, quad(0)),
    ("poweron 4294967295", 0x01, quad(4294967295)),
    ("step", 0x02, b""),
    ("tests", 0x03, b""),
    ("status", 0x04, b""),
    ("version", 0x05, b""),
    ("role none", 0x06, b"\x00"),
    ("role officer", 0x06, b"\x01"),
    ("role user", 0x06, b"\x02"),
    ("reset", 0x07, b""),
    ("begin 3 mac approved keep 100 4", 0x08, bytes([3, MAC, 1, 0]) + quad(100) + bytes([4])),
    ("begin 255 kdf other export 4294967295 255", 0x08, bytes([255, KDF, 0, 1]) + quad(4294967295) + bytes([255])),
    ("bytes 4a656665", 0x09, b"Jefe"),
    ("commit 00FFaaBB01234567", 0x0A, bytes.fromhex("00ffaabb01234567")),
    ("abort", 0x0B, b""),
    ("zeroise 15", 0x0C, b"\x0f"),
    ("zeroiseall", 0x0D, b""),
    ("slot 16", 0x0E, b"\x10"),
    ("zeroisetree 0", 0x0F, b"\x00"),
    ("hash sha256 616263", 0x10, b"\x01abc"),
    ("hash sha512 -", 0x10, b"\x03"),
    ("mac 3 sha384 32 776861", 0x11, b"\x03\x02\x20wha"),
    ("verify 3 sha256 0a0b0c -", 0x12, b"\x03\x01\x03\x0a\x0b\x0c"),
    ("verify 3 sha512 - 6162", 0x12, b"\x03\x03\x00ab"),
    ("seal 1 16 6161 626262", 0x13, b"\x01\x10" + quad(2) + b"aabbb"),
    ("sealiv 2 12 010203 - 0405", 0x14, b"\x02\x0c\x03" + quad(0) + b"\x01\x02\x03\x04\x05"),
    ("sealiv 2 12 01 020202 04", 0x14, b"\x02\x0c\x01" + quad(3) + b"\x01\x02\x02\x02\x04"),
    ("open 2 0102 030303 - 0a0b0c0d", 0x15, b"\x02\x04\x02" + quad(3) + b"\x01\x02\x03\x03\x03\x0a\x0b\x0c\x0d"),
    ("open 2 - - 44 -", 0x15, b"\x02\x00\x00" + quad(0) + b"D"),
    ("wrap 0 1", 0x16, b"\x00\x01"),
    ("unwrap 0 1 aes keep 5 1fa6", 0x17, bytes([0, 1, AES, 0]) + quad(5) + b"\x1f\xa6"),
    ("wrappad 9 9", 0x18, b"\x09\x09"),
    ("unwrappad 7 5 kek export 10 -", 0x19, bytes([7, 5, KEK, 1]) + quad(10)),
    ("derive 4 5 mac keep 10 32 6c61 63", 0x1A, bytes([4, 5, MAC, 0]) + quad(10) + b"\x20\x02lac"),
    ("random 65537 -", 0x1B, quad(65537)),
    ("generate 1 kek approved export 1000000 32", 0x1C, bytes([1, KEK, 1, 1]) + quad(1000000) + b"\x20"),
    ("reseed ff", 0x1D, b"\xff"),
]

# A line of each form, for the mistakes that any line can have.
FORMS = []
for line, service, _ in GOOD:
    if service not in [s for _, s in FORMS]:
        FORMS.append((line, service))
FORMS = [line for line, _ in FORMS]

WORDS = [line + " 1" for line in FORMS]
FEWER = [line.rsplit(" ", 1)[0] for line in FORMS if " " in line]
SPACES = (
    [line.replace(" ", "  ", 1) for line in FORMS if " " in line][:8]
    + [line + " " for line in FORMS][:8]
    + [" step", "step ", "  ", " ", "wrap 0  1", "seal 1 16  00", "-", " #", "role  none"]
)
NUMBERS = [
    "poweron +1", "poweron -1", "poweron 00", "poweron 01", "poweron 4294967296", "poweron 0x1", "poweron 1.", "poweron", "poweron ",
    "poweron 18446744073709551616", "poweron 99999999999999999999999", "zeroise 256", "zeroise 015", "wrap 0 256", "wrap 256 0",
    "random 4294967296 -", "random -1 -", "random 1_000 -", "begin 3 mac approved keep 4294967296 4", "begin 3 mac approved keep 1 256",
    "mac 3 sha256 256 -", "seal 1 256 - -",
]
NAMES = [
    "role Officer", "role officers", "role 1", "role crypto", "hash sha1 00", "hash SHA256 00", "hash 1 00", "begin 3 hmac other keep 1 4",
    "begin 3 mac Other keep 1 4", "begin 3 mac other 0 1 4", "begin 3 3 other keep 1 4", "begin 3 mac keep other 1 4", "unwrap 0 1 mac approved 5 00",
    "Step", "STEP", "steps", "ste", "zeroize 1", "frob", "poweroff", "zeroisetree", "zeroisealll", "selectrole user",
]
BYTES = [
    "bytes 4", "bytes 4a6", "bytes 4g", "bytes --", "bytes -4a", "bytes 0x4a", "bytes", "hash sha256 61626", "hash sha256", "commit -1",
    "verify 3 sha256 - 0", "seal 1 16 - 6 ", "open 2 - - 44 4", "reseed 4a,4a", "reseed 4a;", "bytes \u00e4a",
]
SIGNS = ["step\t", "\tstep", "step\r", "wrap 0\t1", "step\0", "\0", "wrap 0 1\0", "status\x7f", "wrap 0,1", "zeroise\u00a01", "role user#", "step # a note"]
COMMENTS = ["", "#", "# a note", "#step", "# step\r", "##", "#\0"]


def literal(text):
    data = text.encode("latin-1") if isinstance(text, str) else text
    signs = "".join(chr(b) if 32 <= b < 127 and b not in (34, 92) else f"\\x{b:02x}" for b in data)
    return f'b"{signs}"'


print("//! Lines, and the commands that they spell, written by checks/operator_rows.py; see there.\n")
print("/// A line, the number of its service, and the body of its command.")
print("pub(crate) type Row = (&'static [u8], u8, &'static [u8]);\n")
for name, rows in (("MANAGING", GOOD[:19]), ("SERVING", GOOD[19:])):
    print(f"pub(crate) const {name}: [Row; {len(rows)}] = [")
    for line, service, body in rows:
        print(f"    ({literal(line)}, 0x{service:02x}, {literal(body)}),")
    print("];\n")
for name, lines in (
    ("ONE_WORD_MORE", WORDS), ("ONE_WORD_FEWER", FEWER), ("BAD_SPACES", SPACES), ("BAD_NUMBERS", NUMBERS), ("BAD_NAMES", NAMES),
    ("BAD_BYTES", BYTES), ("OTHER_SIGNS", SIGNS), ("COMMENTS", COMMENTS),
):
    spelled = [line for line, _, _ in GOOD]
    assert name == "COMMENTS" or not set(lines) & set(spelled), name
    print(f"pub(crate) const {name}: [&[u8]; {len(lines)}] = [")
    for line in lines:
        print(f"    {literal(line)},")
    print("];\n")

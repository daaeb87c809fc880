#!/usr/bin/env python3
"""Writes the expected values of the tests of session_commands, computed by Python alone.

    python3 checks/session_rows.py > crates/session_commands/src/session_rows.rt
    (cd crates/session_commands && rt fmt)

A row is a seed, a count, and the FNV-1a check sum (64 bits) of the session's commands joined: of each its service's number,
the length of its body in four bytes, and the body. The first commands that are drawn stand apart, so that a mistake shows where it is.
"""
MULTIPLIER, INCREMENT = 6364136223846793005, 1442695040888963407
WIDTH = 1 << 64
SESSIONS = ((0, 40), (7, 200), (WIDTH - 1, 40))


def key(slot, kind):
    return 0x1C, bytes([slot, kind, 1, 1]) + (1_000_000).to_bytes(4, "big") + bytes([32])


FIRST = [
    (0x01, bytes(4)), (0x03, b""), (0x02, b""), (0x02, b""), (0x02, b""), (0x06, b"\x01"),
    key(0, 1), key(1, 2), key(2, 3), key(3, 4), (0x06, b"\x02"),
]


def drawn(r):
    m, n = r % 8, r // 256 % 4096
    text = bytes((i + r) % 256 for i in range(n))
    return (
        (0x10, b"\x01" + text),
        (0x11, b"\x02\x01\x20" + text),
        (0x13, b"\x00\x10" + bytes(4) + text),
        (0x1B, (n + 1).to_bytes(4, "big")),
        (0x10, b"\x03" + text),
        (0x15, b"\x00\x10\x0c" + bytes(4) + bytes(12) + text + bytes(16)),
        (0x04, b""),
        (0x0E, bytes([n % 16])),
    )[m]


def session(seed, count):
    commands, x = list(FIRST), seed
    for _ in range(count):
        x = (MULTIPLIER * x + INCREMENT) % WIDTH
        commands.append(drawn(x >> 32))
    return commands


def check_sum(data):
    total = 0xCBF29CE484222325
    for byte in data:
        total = (total ^ byte) * 0x100000001B3 % WIDTH
    return total


def main():
    print("//! Rows of sessions, written by checks/session_rows.py; see there.\n")
    print("/// A seed, a count, the numbers of the services of the first eight commands that are drawn, the lengths of their bodies, and the")
    print("/// FNV-1a check sum of all commands.")
    print("pub(crate) type Row = (u64, u32, [u8; 8], [usize; 8], u64);\n")
    print(f"pub(crate) const ROWS: [Row; {len(SESSIONS)}] = [")
    for seed, count in SESSIONS:
        commands = session(seed, count)
        joined = b"".join(bytes([s]) + len(b).to_bytes(4, "big") + b for s, b in commands)
        eight = commands[11:19]
        services = ", ".join(f"0x{s:02x}" for s, _ in eight)
        print(f"    ({seed}, {count}, [{services}], {[len(b) for _, b in eight]}, 0x{check_sum(joined):016x}),")
    print("];")


if __name__ == "__main__":
    main()

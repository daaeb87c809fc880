#!/usr/bin/env python3
"""Writes the noises over which module_program's tests run, and where each fails by SP 800-90B, 4.4, as computed here.

    python3 checks/noise_rows.py > crates/module_program/src/noise_rows.rt
    (cd crates/module_program && rt fmt)

A part of a noise is its first byte, what each next one has more, modulo 256, and how many they are. A fault shows at the
last event of its noise and at none before: that is asserted here.
"""

REPETITIONS = 31
WINDOW, HITS = 512, 325
PASS = 1408

ENDED, FAILED, REPETITION, PROPORTION = 3, 4, 5, 6


def samples(parts):
    return [(first + more * k) % 256 for first, more, count in parts for k in range(count)]


def fault(noise):
    """The number of the first sample at which a health test fails, counted from 1, and its code; (None, None) where none does."""
    for count in range(1, len(noise) + 1):
        last = noise[:count][-REPETITIONS:]
        if len(last) == REPETITIONS and len(set(last)) == 1:
            return count, REPETITION
        window = noise[(count - 1) // WINDOW * WINDOW : count]
        if noise[count - 1] == window[0] and window.count(window[0]) == HITS:
            return count, PROPORTION
    return None, None


def counting(count):
    return [(0, 1, count)] if count else []


# Thirty bytes 00 and one 01, so many times.
def thirties(times):
    return [(0, 0, 30), (1, 0, 1)] * times


# The bytes before an event, which is no byte.
EVENTS = [(counting(count), name, code) for count in (0, 1023, 1024, 1279, 1280, 1407) for name, code in (("Ended", ENDED), ("Failed", FAILED))]
EVENTS += [(counting(1000), "Ended", ENDED)]

SIGNALS = [
    # from the first sample on, and up to the last of a pass
    ([(0, 0, 31)], REPETITION),
    ([(0xFF, 0, 31)], REPETITION),
    (counting(1377) + [(0xFF, 0, 31)], REPETITION),
    # a run of thirty before it
    ([(5, 0, 30), (6, 0, 31)], REPETITION),
    # from dropped samples into those of the seed, and from entropy into the nonce
    (counting(1009) + [(0, 0, 31)], REPETITION),
    (counting(1265) + [(0, 0, 31)], REPETITION),
    # the first sample of a window, of the first and of the second, and at the last of a window
    (thirties(10) + [(0, 0, 25)], PROPORTION),
    (counting(512) + thirties(10) + [(0, 0, 25)], PROPORTION),
    ([(0, 0, 1), (1, 1, 177)] + thirties(10) + [(0, 0, 24)], PROPORTION),
    # both at one sample
    (thirties(9) + [(0, 0, 24), (1, 0, 1), (0, 0, 31)], REPETITION),
]

# Noises of one pass that no test fails.
SOUND = [
    counting(1408),
    [(7, 0, 30), (8, 0, 30)] + counting(1348),
    [(0xFF, 0, 30)] + counting(1378),
    counting(1378) + [(0xFF, 0, 30)],
    # the first sample of a window 324 times in it, and then at once in the next one
    thirties(10) + [(0, 0, 24), (1, 1, 178)] + counting(896),
    # the same, where the 325th is the first of the next window
    [(0, 0, 1), (1, 1, 178)] + thirties(10) + [(0, 0, 24)] + counting(895),
    # a byte that isn't the first of its window, 480 times
    [(1, 0, 1)] + thirties(16) + [(1, 1, 15)] + counting(896),
]

# Two passes: the second goes on with what the first began. Each is followed by a counting noise.
FIRST_RUN = counting(1393) + [(0xAA, 0, 15)]
FIRST_WINDOW = counting(1024) + thirties(10) + [(0, 0, 24), (1, 1, 50)]
SECOND = [
    (FIRST_RUN, [(0xAA, 0, 16)], REPETITION),
    (FIRST_WINDOW, [(0, 0, 1)], PROPORTION),
]


def text(parts):
    return "&[" + ", ".join(f"({first}, {more}, {count})" for first, more, count in parts) + "]"


def table(name, kind, rows):
    print(f"pub(crate) const {name}: [{kind}; {len(rows)}] = [")
    for row in rows:
        print(f"    {row},")
    print("];\n")


for parts, code in SIGNALS:
    assert fault(samples(parts)) == (len(samples(parts)), code), parts
for parts, _, _ in EVENTS:
    assert fault(samples(parts)) == (None, None), parts
for parts in SOUND:
    assert len(samples(parts)) == PASS and fault(samples(parts)) == (None, None), parts
for first, second, code in SECOND:
    both = samples(first + second)
    assert len(samples(first)) == PASS and fault(both) == (len(both), code), second
    # after a Reset these samples are the first ones
    assert fault(samples(second + counting(PASS))[:PASS]) == (None, None), second
# A counting noise fails no test behind a Reset.
assert fault(samples(counting(2 * PASS))) == (None, None)

print("//! Written by `checks/noise_rows.py`.\n")
print("use crate::runs::Part;\nuse outside::Sample;\n")
table("EVENTS", "(&[Part], Sample, u8)", [f"({text(parts)}, Sample::{name}, {code})" for parts, name, code in EVENTS])
table("SIGNALS", "(&[Part], u8)", [f"({text(parts)}, {code})" for parts, code in SIGNALS])
table("SOUND", "&[Part]", [text(parts) for parts in SOUND])
table("SECOND", "(&[Part], &[Part], u8)", [f"({text(first)}, {text(second)}, {code})" for first, second, code in SECOND])

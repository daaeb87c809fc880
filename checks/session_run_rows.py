#!/usr/bin/env python3
"""Writes the expected values of the tests of session_runs, computed by the independent model of the module.

    python3 checks/session_run_rows.py > crates/session_runs/src/summary_rows.rt
    (cd crates/session_runs && rt fmt)

It takes the package `cryptography`. A row is a seed, a count, a number of samples of noise, and the summary of the session that is run over them: see machine_sessions.py.
"""
import hmac

from machine import IMAGE_KEY
from machine_sessions import summary

IMAGE = b"abc"
DIGEST = hmac.new(IMAGE_KEY, IMAGE, "sha256").digest()
# One pass of the tests takes 1,408 samples, and after 1,024 draws each time 256 more.
PASS, DRAWS, RESEED = 1_408, 1_024, 256

LARGEST = 2**64 - 1


def samples(count):
    """So many samples of noise."""
    return bytes(place % 256 for place in range(count))


def enough(count):
    """As many samples as a session of this count may take: its first commands draw four times, and each other one at most once."""
    return PASS + RESEED * ((count + 4) // DRAWS)


# The last two have too little noise, for the seed of the generator and at once.
SESSIONS = [(seed, count, enough(count)) for seed in (0, 7, LARGEST) for count in (0, 1, 12)] + [(7, 3, 1_407), (0, 2, 0)]

print("//! Rows of runs, written by checks/session_run_rows.py; see there.\n")
print("/// A seed, a count, a number of samples, and the summary.")
print("pub(crate) type Row = (u64, u32, usize, &'static str);\n")
print(f"pub(crate) static ROWS: [Row; {len(SESSIONS)}] = [")
for seed, count, noise in SESSIONS:
    text = summary(seed, count, IMAGE, DIGEST, samples(noise)).decode().replace("\n", "\\n")
    print(f'    ({seed}, {count}, {noise}, "{text}"),')
print("];")

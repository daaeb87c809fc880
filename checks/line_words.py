"""Runs by their words: sessions, words that aren't of a form, and files that are looked at in their order."""
from line_parts import FILES, OPERATE, Surprise
from machine_lines import BAD_DIGEST
from machine_words import FILE_FAILED, USAGE

PARTS = ("image", "digest", "noise")
LARGEST_SEED = 2**64 - 1
SHORT_NOISE = ("image", "digest", "noise_of_1000")


def session(seed, count, parts=PARTS):
    return ("session", str(seed), str(count), *parts)


# Each session is a run without input, and ends with the status 0, also where the module ends in Error.
SESSIONS = [session(seed, count) for seed in (0, 7, LARGEST_SEED) for count in (0, 1)]
SESSIONS += [session(seed, count) for seed, count in ((0, 100), (2**32, 9), (10**19, 9), (0, 1_000), (7, 1_000), (LARGEST_SEED, 1_000))]
# The noise ends in the start, or in the reseed that the 1,025th draw asks for.
SESSIONS += [session(7, 5, SHORT_NOISE), session(7, 4_500, ("image", "digest", "noise_of_1408"))]
SESSIONS += [session(0, 30, ("image_changed", "digest", "noise")), session(1, 9, ("image", "digest_in_upper_case", "noise"))]

# Words of no form.
NO_FORMS = [
    (),
    ("",),
    ("frob",),
    ("Operate", *PARTS),
    ("operate",),
    ("operate", *PARTS[:2]),
    ("operate", *PARTS, "more"),
    ("session", *PARTS),
    ("session", "7", *PARTS),
    ("session", "7", "0", *PARTS, "more"),
    ("sessions", "7", "0", *PARTS),
    ("vectors", "image"),
    ("Vectors",),
    ("vector",),
    ("check", "image"),
    ("check", ""),
    ("Check",),
    ("checks",),
    ("digest",),
    ("digest", "image", "digest"),
    ("serve", *PARTS[:2]),
    *(session(seed, 0) for seed in ("", "-", "-1", "+1", "00", "07", "0x7", "1_0", 2**64, 10**20, "9" * 40, "seed")),
    *(session(0, count) for count in ("", "-", "-1", "+1", "00", "01", "0x1", "1.", 100_001, 2**32, 2**64, "9" * 40, "count")),
]

# Files that aren't there, or aren't of their form, with the status: image, digest and noise are looked at in this order.
REFUSED = [
    (("image_that_is_not_there", "digest_empty", "no_noise"), FILE_FAILED),
    (("image", "digest_that_is_not_there", "noise"), FILE_FAILED),
    (("image", "digest_that_is_not_there", "no_noise"), FILE_FAILED),
    (("image", "digest_empty", "no_noise"), BAD_DIGEST),
    (("image", "digest", "no_noise"), FILE_FAILED),
    *((("image", name, "noise"), BAD_DIGEST) for name in FILES if name.startswith(("digest_of_6", "digest_with"))),
]
# No image is looked at where the words are no form, and the largest seed and count are of it.
NO_IMAGE = ("image_that_is_not_there", "digest", "noise")
NO_FORMS += [session("00", 0, NO_IMAGE), session(0, 100_001, NO_IMAGE), ("operate", *NO_IMAGE, "more")]
NO_FORMS += [session(0, 100_001, ("image", "digest_empty", "noise"))]
LARGEST = session(LARGEST_SEED, 100_000, NO_IMAGE)


def runs():
    """The words, each with the status."""
    found = [(words, 0) for words in SESSIONS] + [(words, USAGE) for words in NO_FORMS] + [(LARGEST, FILE_FAILED)]
    for parts, status in REFUSED:
        found += [(("operate", *parts), status), (("session", "7", "0", *parts), status)]
    found += [(("digest", "image"), 0), (("digest", "image_of_nothing"), 0), (("digest", "image_that_is_not_there"), FILE_FAILED)]
    if len(set(found)) != len(found) or OPERATE in [words for words, _ in found]:
        raise Surprise("words that stand twice")
    return found

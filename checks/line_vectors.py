"""Runs of vector lines: what passes and what doesn't, the limits of each part, and each mistake that a line can have."""
import machine_functions as functions
from line_parts import Run, Surprise, counted, line, one, padded, sealed, turned, wrapped
from machine_lines import BAD_LINE
from machine_vectors import SOME_FAILED, cmac, counter_mode, derived_by, feedback_mode, pipeline_mode, report

VECTORS = ("vectors",)
LIMIT = 131_400
ABC = "ba7816bf8f01cfea414140de5dae2223b00361a396177a9cb410ff61f20015ad"
NOTHING = "e3b0c44298fc1c149afbf4c8996fb92427ae41e4649b934ca495991b7852b855"
QUESTION = b"what do ya want for nothing?"
TEXT, AAD, IV = counted(37), counted(20), counted(12)
LABEL, CONTEXT = b"label", b"context"
KEYS = [counted(size) for size in (16, 24, 32)]
MODES = {"kbcounter": counter_mode, "kbfeedback": feedback_mode, "kbpipeline": pipeline_mode}
# The values of published vectors.
CMAC_KEY = "2b7e151628aed2a6abf7158809cf4f3c"
PUBLISHED = [
    f"sha256 616263 {ABC}",
    "sha384 616263 cb00753f45a35e8bb5a03d699ac65007272c32ab0eded1631a8b605a43ff5bed8086072ba1e7cc2358baeca134c825a7",
    "sha512 616263 ddaf35a193617abacc417349ae20413112e6fa4e89a97ea20a9eeee64b55d39a2192992a274fc1a836ba3c23a3feebbd"
    "454d4423643ce80e2a9ac94fa54ca49f",
    line("hmac256", b"Jefe", QUESTION, "5bdcc146bf60754e6a042426089575c75a003f089d2739839dec58b964ec3843"),
    line("hmac384", b"Jefe", QUESTION)
    + " af45d2e376484031617f78d2b58a6b1b9c7ef464f5a01b47e42ec3736322445e8e2240ca5e69e2c78b3239ecfab21649",
    line("hmac512", b"Jefe", QUESTION)
    + " 164b7a7bfcf819e2e395fbe73b56e0a387bd64222e831fd610270cd7ea2505549758bf75c05a994a6d034f65f8f0e6fdcaeab1a34d4a6b4b636e070a38bce737",
    line("seal", bytes(16), bytes(12), b"", b"", b"", "58e2fccefa7e3061367f1d57a4e7455a"),
    line("seal", bytes(16), bytes(12), b"", bytes(16), "0388dace60b6a392f328c2b971b2fe78", "ab6e47d42cec13bdf53a67b21257bddf"),
    line("seal", bytes(32), bytes(12), b"", bytes(16), "cea7403d4d606b6e074ec5d3baf39d18", "d0d1c8a799996bf0265b98b5d48ab919"),
    line("open", bytes(32), bytes(12), b"", "cea7403d4d606b6e074ec5d3baf39d18", "d0d1c8a799996bf0265b98b5d48ab919", bytes(16)),
    line("wrap", counted(16), "00112233445566778899aabbccddeeff", "1fa68b0a8112b447aef34bd8fb5a7b829d3e862371d2cfe5"),
    line("unwrap", counted(16), "1fa68b0a8112b447aef34bd8fb5a7b829d3e862371d2cfe5", "00112233445566778899aabbccddeeff"),
    line("wrappad", "5840df6e29b02af1ab493b705bf16ea1ae8338f4dcc176a8", b"ForPasi", "afbeb0f07dfbf5419200f2ccb50bb24f"),
    line("unwrappad", "5840df6e29b02af1ab493b705bf16ea1ae8338f4dcc176a8", "afbeb0f07dfbf5419200f2ccb50bb24f", b"ForPasi"),
    f"cmac {CMAC_KEY} - bb1d6929e95937287fa37d129b756746",
    f"cmac {CMAC_KEY} 6bc1bee22e409f96e93d7e117393172a 070a16b46b4d4144f79bdd9dd04a287c",
]


def generated(entropy, nonce, personal, length):
    return functions.generate(b"", functions.instantiate(entropy, nonce, personal), length)[0]


def rows():
    """For each kind, with each size of its key, what stands before OUT, OUT, and what stands behind it."""
    found = []
    for alg, name in enumerate(("256", "384", "512"), 1):
        found.append(([f"sha{name}", TEXT], functions.hash_of(alg, TEXT), []))
        found.append(([f"hmac{name}", counted(200), TEXT], functions.hmac(alg, counted(200), TEXT), []))
    for key in KEYS:
        ciphertext, tag = sealed(key, IV, AAD, TEXT)
        found.append((["seal", key, IV, AAD, TEXT], ciphertext, [tag]))
        found.append((["open", key, IV, AAD, ciphertext, tag], TEXT, []))
        found.append((["wrap", key, counted(24)], wrapped(counted(24), key), []))
        found.append((["unwrap", key, wrapped(counted(24), key)], counted(24), []))
        found.append((["wrappad", key, counted(9)], padded(counted(9), key), []))
        found.append((["unwrappad", key, padded(counted(9), key)], counted(9), []))
        found.append((["cmac", key, TEXT], cmac(key, TEXT), []))
        for name, mode in MODES.items():
            found.append(([name, key, LABEL, CONTEXT], derived_by(mode, key, LABEL, CONTEXT, 40), []))
    found.append((["derive", counted(70), LABEL, CONTEXT], functions.derive(counted(70), LABEL, CONTEXT, 40), []))
    found.append((["drbg", counted(32), counted(16), b"personal"], generated(counted(32), counted(16), b"personal", 40), []))
    return found


def checked(lines, passing):
    """A run of lines that all pass, that all fail, or of which each does as the list says."""
    passing = [passing] * len(lines) if isinstance(passing, bool) else passing
    stream = "".join(f"{each}\n" for each in lines).encode()
    wants = "".join(f"{number} {'pass' if passes else 'fail'}\n" for number, passes in enumerate(passing, 1))
    status = 0 if all(passing) else SOME_FAILED
    if report(stream) != (status, f"{wants}{sum(passing)} of {len(lines)}\n".encode()):
        raise Surprise(f"{report(stream)} in place of {wants}")
    return one(VECTORS, stream, status)


def passing():
    """Each kind with each size of its key, and published vectors."""
    return checked(PUBLISHED + [line(*before, out, *behind) for before, out, behind in rows()], True)


def with_out(changed):
    """The lines with another OUT."""
    return [line(*before, changed(out), *behind) for before, out, behind in rows()]


def failing():
    """The same with another OUT: its last bit turned, its first byte, and one of a text's."""
    texts = [row for row in rows() if row[0][0] not in ("open", "unwrap", "unwrappad")]
    others = [line(*before[:-1], turned(before[-1]), out, *behind) for before, out, behind in texts]
    return checked(with_out(turned) + with_out(lambda out: bytes([out[0] ^ 0x80]) + out[1:]) + others, False)


def other_lengths():
    """An OUT that is a byte too short or too long. A generator that is asked for less gives the front of the same bytes."""
    short, long = with_out(lambda out: out[:-1]), with_out(lambda out: out + b"\1")
    return checked(short + long, [each.startswith("drbg") for each in short] + [False] * len(long))


def no_out():
    """An OUT without bytes, where there is an answer and where there is none."""
    some = [line(*before, b"", *behind) for before, _, behind in rows() if before[0] not in ("derive", "drbg", *MODES)]
    tag = sealed(KEYS[0], IV, AAD, b"")[1]
    lines = some + [line("seal", KEYS[0], IV, AAD, b"", b"", tag), line("open", KEYS[0], IV, AAD, b"", tag, b"")]
    return checked(lines, [False] * len(some) + [True, True])


def refusals():
    """`fail` where the answer is a refusal, where it is bytes, and bytes where it is a refusal."""
    key, lines, passing = KEYS[1], [], []
    opened = [
        ("open", [key, IV, AAD, sealed(key, IV, AAD, TEXT)[0]], sealed(key, IV, AAD, TEXT)[1], TEXT),
        ("open", [key, IV, AAD, b""], sealed(key, IV, AAD, b"")[1], b""),
        ("unwrap", [key], wrapped(counted(32), key), counted(32)),
        ("unwrappad", [key], padded(counted(5), key), counted(5)),
        ("unwrappad", [key], padded(counted(32), key), counted(32)),
    ]
    for name, before, last, out in opened:
        for answered, said in ((True, out), (True, "fail"), (False, "fail"), (False, out), (False, b""), (False, bytes(len(out)))):
            lines.append(line(name, *before, last if answered else turned(last), said))
            passing.append(said == out if answered else said == "fail")
    # The wrapping of one is none of the other, and neither is a wrapping of zeros. A padding has to be zero, and below 8 bytes.
    lines += [line("unwrap", key, padded(counted(32), key), "fail"), line("unwrappad", key, wrapped(counted(32), key), "fail")]
    lines += [line("unwrap", key, bytes(24), "fail"), line("unwrappad", key, bytes(16), "fail"), line("unwrappad", key, bytes(24), "fail")]
    return checked(lines, passing + [True] * 5)


def tags():
    """Tags of 12 to 16 bytes, right and wrong in the last of these."""
    lines, passing, key = [], [], KEYS[2]
    for length in range(12, 17):
        ciphertext, tag = sealed(key, IV, AAD, TEXT, length)
        for given in (tag, turned(tag)):
            lines.append(line("seal", key, IV, AAD, TEXT, ciphertext, given))
            lines.append(line("open", key, IV, AAD, ciphertext, given, TEXT))
            lines.append(line("open", key, IV, AAD, ciphertext, given, "fail"))
            passing += [given == tag, given == tag, given != tag]
    return checked(lines, passing)


def least_and_most():
    """Each part with as few and as many bytes as it may have, but for the longest of all."""
    key, lines = KEYS[0], []
    for iv in (counted(1), counted(16), counted(255)):
        ciphertext, tag = sealed(key, iv, b"", TEXT)
        lines.append(line("seal", key, iv, b"", TEXT, ciphertext, tag))
        lines.append(line("open", key, iv, b"", ciphertext, tag, TEXT))
    for length in (16, 64):
        lines.append(line("wrap", key, counted(length), wrapped(counted(length), key)))
        lines.append(line("unwrap", key, wrapped(counted(length), key), counted(length)))
    for length in (1, 8, 64):
        lines.append(line("wrappad", key, counted(length), padded(counted(length), key)))
        lines.append(line("unwrappad", key, padded(counted(length), key), counted(length)))
    for label, context in ((b"", b""), (counted(255), counted(255))):
        for length in (1, 100):
            lines.append(line("derive", b"", label, context, functions.derive(b"", label, context, length)))
            lines += [line(name, key, label, context, derived_by(mode, key, label, context, length)) for name, mode in MODES.items()]
    for length in (1, 32, 33):
        lines.append(line("drbg", b"", b"", b"", generated(b"", b"", b"", length)))
    for alg, name in enumerate(("256", "384", "512"), 1):
        lines += [line(f"sha{name}", b"", functions.hash_of(alg, b"")), line(f"hmac{name}", b"", b"", functions.hmac(alg, b"", b""))]
    return checked(lines + [line("cmac", key, b"", cmac(key, b""))], True)


def longest():
    """The longest parts, and a line of 131,400 bytes."""
    key, zeros = KEYS[0], bytes(65_664)
    tag = functions.gcm_tag(key, b"i", zeros, b"")[:12]
    text = bytes(65_662)
    lines = [
        line("seal", key, b"i", zeros, b"", b"", tag),
        line("open", key, b"i", b"", zeros, bytes(12), b""),
        line("derive", b"k", LABEL, CONTEXT, functions.derive(b"k", LABEL, CONTEXT, 65_536)),
        line("drbg", b"e", b"n", b"", generated(b"e", b"n", b"", 65_536)),
        line("kbfeedback", key, LABEL, CONTEXT, derived_by(feedback_mode, key, LABEL, CONTEXT, 65_536)),
        line("hmac256", b"k", text, functions.hmac(1, b"k", text)),
    ]
    if len(lines[-1]) != LIMIT:
        raise Surprise(f"a line of {len(lines[-1])} bytes")
    return checked(lines, [True, False, True, True, True, True])


GOOD = f"sha256 616263 {ABC}\n".encode()
WRONG = b"sha256 616263 00\n"


def counts():
    """What is counted: lines, comments and empty lines too; and what is checked. A last line without its LF counts."""
    streams = [
        (b"", 0, b"0 of 0\n"),
        (b"# a note\n\n\n# another", 0, b"0 of 0\n"),
        (GOOD + WRONG, 1, b"1 pass\n2 fail\n1 of 2\n"),
        (WRONG, 1, b"1 fail\n0 of 1\n"),
        (b"# a note\n" + WRONG + b"\n#" + GOOD + GOOD * 9 + WRONG[:-1], 1, None),
        (GOOD.upper().replace(b"SHA", b"sha"), 0, b"1 pass\n1 of 1\n"),
        (b"#".ljust(LIMIT) + b"\n" + GOOD, 0, b"2 pass\n1 of 1\n"),
        ("\n".join((PUBLISHED[8], PUBLISHED[10], PUBLISHED[12])).encode(), 0, b"1 pass\n2 pass\n3 pass\n3 of 3\n"),
    ]
    for stream, status, wants in streams:
        if wants is not None and report(stream) != (status, wants):
            raise Surprise(f"{report(stream)} in place of {wants}")
    return Run(VECTORS, [stream for stream, _, _ in streams], [status for _, status, _ in streams])


# Bad lines.


def example(name):
    return next(line(*before, out, *behind) for before, out, behind in rows() if before[0] == name)


NAMES = list(dict.fromkeys(before[0] for before, _, _ in rows()))
WITH_CIPHER_KEY = ["seal", "open", "wrap", "unwrap", "wrappad", "unwrappad", "cmac", *MODES]


def with_word(name, place, value):
    """The line of a kind with another word: the first behind the name has the place 1."""
    words = example(name).split()
    words[place] = value.hex() or "-" if isinstance(value, bytes) else value
    return " ".join(words)


WORDS = [f"{example(name)} 00" for name in NAMES] + [example(name).rsplit(" ", 1)[0] for name in NAMES]
KEY_LENGTHS = [with_word(name, 1, counted(length)) for name, length in zip(WITH_CIPHER_KEY, (15, 17, 33, 0, 8, 23, 25, 31, 1, 64))]
KEY_LENGTHS += [with_word(name, 1, counted(length)) for name, length in zip(WITH_CIPHER_KEY, (0, 31, 8, 17, 15, 33, 1, 48, 64, 25))]
PART_LENGTHS = [
    *(with_word(name, 2, counted(length)) for name in ("seal", "open") for length in (0, 256)),
    *(with_word("seal", 6, counted(length)) for length in (0, 11, 17)),
    *(with_word("open", 5, counted(length)) for length in (0, 11, 17)),
    *(with_word("wrap", 2, counted(length)) for length in (0, 8, 23, 25, 72)),
    *(with_word("wrappad", 2, counted(length)) for length in (0, 65)),
    *(with_word("unwrap", 2, counted(length)) for length in (0, 16, 25, 31, 80)),
    *(with_word("unwrappad", 2, counted(length)) for length in (0, 8, 17, 23, 80)),
    *(with_word(name, place, counted(256)) for name in ("derive", *MODES) for place in (2, 3)),
    *(with_word(name, 4, b"") for name in ("derive", "drbg", *MODES)),
]
REFUSALS = [with_word(name, len(example(name).split()) - 1, "fail") for name in NAMES if name not in ("open", "unwrap", "unwrappad")]
REFUSALS += [with_word("seal", 5, "fail"), with_word("open", 4, "fail"), with_word("unwrap", 2, "fail")]
REFUSALS += [with_word("open", 6, "Fail"), with_word("unwrap", 3, "fails"), with_word("unwrappad", 3, "FAIL")]
SPELLINGS = [
    "sha1 616263 00",
    f"SHA256 616263 {ABC}",
    f"sha256  616263 {ABC}",
    f"sha256 616263 {ABC} ",
    f" sha256 616263 {ABC}",
    f"sha256 616263\t{ABC}",
    f"sha256 616263 {ABC}\r",
    f"sha256 616263 {ABC}\0",
    f"sha256 61626 {ABC}",
    f"sha256 616263 {ABC[:-1]}",
    f"sha256 61626g {ABC}",
    f"sha256 -- {ABC}",
    f"sha256 616263 {ABC} # a note",
    "sha256",
    "hash sha256 616263",
    "status",
    "frob",
    " ",
    "passes",
]
LONG_KEY = KEYS[0]
LONGEST_NOT = [
    line("seal", LONG_KEY, b"i", bytes(65_665), b"", b"", bytes(12)),
    line("open", LONG_KEY, b"i", b"", bytes(65_665), bytes(12), b""),
    line("derive", b"k", b"", b"", bytes(65_537)),
    line("drbg", b"e", b"", b"", bytes(65_537)),
    line("kbpipeline", LONG_KEY, b"", b"", bytes(65_537)),
    line("hmac256", b"", bytes(65_663), functions.hmac(1, b"", bytes(65_663))),
    "#".ljust(LIMIT + 1),
]


def bad(lines):
    """A line that isn't of a form behind one that passes; none is read after it."""
    streams = [GOOD + text.encode() + b"\n" + GOOD for text in lines]
    for stream, text in zip(streams, lines):
        if report(stream) != (BAD_LINE, b"1 pass\nbad line 2\n"):
            raise Surprise(f"{report(stream)}: {text[:80]}")
    return Run(VECTORS, streams, [BAD_LINE] * len(lines))


def bad_ends():
    """Where a bad line stands: the report so far is written, and a line that failed doesn't change the status."""
    streams = [b"frob\n" + GOOD, b"frob", WRONG + b"frob\n", b"# a note\n\n" + WRONG + b"#\nfrob\n" + GOOD, GOOD + b"#".ljust(LIMIT + 1)]
    return Run(VECTORS, streams, [BAD_LINE] * len(streams))


def all_bad(about, lines):
    def run():
        return bad(lines)

    run.__doc__ = about
    return run


assert len(LONGEST_NOT[0]) == len(LONGEST_NOT[1]) == LIMIT and len(LONGEST_NOT[5]) == LIMIT + 1

RUNS = {
    "vectors_pass": passing,
    "vectors_fail": failing,
    "vectors_of_other_lengths": other_lengths,
    "vectors_without_out": no_out,
    "vectors_refused": refusals,
    "vectors_with_tags": tags,
    "vectors_at_limits": least_and_most,
    "vectors_of_most_bytes": longest,
    "vectors_counted": counts,
    "bad_vectors_by_words": all_bad("Each kind with a word more, and with one less.", WORDS),
    "bad_vectors_by_key": all_bad("Keys of each kind that has AES, of other lengths.", KEY_LENGTHS),
    "bad_vectors_by_part": all_bad("Each other part that has a limit, past it.", PART_LENGTHS),
    "bad_vectors_by_fail": all_bad("`fail` where a kind has no refusal, or in the place of another word, or otherwise written.", REFUSALS),
    "bad_vectors_by_spelling": all_bad("Spaces, signs, digits and names.", SPELLINGS),
    "bad_vectors_by_length": all_bad("The longest parts with one byte more, and lines of 131,401 bytes.", LONGEST_NOT),
    "bad_vectors_by_end": bad_ends,
}

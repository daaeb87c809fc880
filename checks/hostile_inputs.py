"""The inputs of hostile_program: an operator's lines that use every service, the same commands as frames, lines for a backup and for what it
restores, vectors for each call of an engine, and what a recorder makes of the frames."""
import machine_functions as functions
from line_parts import FILES, Operator, Surprise, counted, line, padded, sealed, turned, wrapped
from machine_backups import KEYS, backup_of
from machine import Machine, frame
from machine_bodies import Service
from machine_lines import command, digest_of

LOW, HIGH = counted(16), bytes(range(32, 64))
IV, AAD, TEXT = counted(12), b"aad", b"text of twenty bytes"
# Every third command has a sequence number.
NUMBERED = 3


def powered():
    """An officer, and the generator reseeded. A pass of the tests takes 1,408 events of noise, and each reseed 256."""
    o = Operator()
    o.ask("status", "Ok Off")
    o.ask("version", "Ok Off")
    o.power_on(1_000).step()
    o.officer()
    o.ask("reseed 6164")
    o.ask("random 20 -")
    return o


def with_keys(o):
    """Five slots, by each service that fills one from outside or from noise, and an entry that is given up."""
    o.begin(0, "aes", export="export", length=16)
    o.ask(line("bytes", LOW[:7]))
    o.ask(line("bytes", LOW[7:]))
    o.commit(LOW)
    o.begin(1, "kek")
    o.ask(line("bytes", HIGH))
    o.ask("abort")
    o.enter(1, "kek", HIGH)
    o.enter(2, "mac", HIGH, "approved", "export")
    o.enter(3, "kdf", HIGH, "approved")
    o.ask("generate 4 aes approved keep 9 32")


def wrappings(o):
    for slot, name in ((5, "wrap"), (6, "wrappad")):
        made = o.ask(f"{name} 1 0")
        o.ask(f"un{name} 1 {slot} mac keep 9 {made}")
    o.ask(line("unwrap", 1, 7, "aes", "keep", 9, wrapped(LOW, HIGH)))
    o.ask(line("unwrappad", 1, 8, "mac", "keep", 9, padded(b"five", HIGH)))
    o.ask(line("unwrap", 1, 9, "aes", "keep", 9, turned(wrapped(LOW, HIGH))), "UnwrapFailed")
    o.ask("wrap 1 2", "WrongDomain")
    o.ask("wrappad 1 0")


def derivations(o):
    for slot in range(9, 13):
        o.ask(line("derive", 3, slot, "mac", "keep", 9, 20 + slot, b"label", counted(slot)))
    o.ask("derive 3 9 mac keep 9 32 - -", "OccupiedSlot")
    o.show(4, 9)


def uses(o):
    o.user()
    for alg in ("sha256", "sha384", "sha512"):
        o.ask(line("hash", alg, TEXT))
        made = o.ask(line("mac", 2, alg, 32, TEXT))
        o.ask(f"verify 2 {alg} {made} {TEXT.hex()}")
    o.ask(line("verify", 2, "sha256", bytes(32), TEXT), "AuthFailed")
    o.ask(line("mac", 9, "sha256", 16, TEXT))
    for length in range(12, 17):
        o.ask(line("seal", 4, length, AAD, TEXT[:length]))
    for length in (0, 16):
        o.ask(line("sealiv", 0, 16, IV, AAD, TEXT[:length]))
        ciphertext, tag = sealed(LOW, IV, AAD, TEXT[:length])
        o.ask(line("open", 0, IV, AAD, ciphertext, tag))
        o.ask(line("open", 0, IV, AAD, ciphertext, turned(tag)), "AuthFailed")


def to_the_end(o):
    """The slots are emptied in each way, and after a Reset the module is taken up again, with noise that stands behind the first's."""
    o.officer()
    o.ask("reseed -")
    o.ask("zeroise 0")
    o.ask("zeroisetree 3")
    o.show(9)
    o.ask("wrap 1 0", "EmptySlot")
    o.ask("zeroiseall")
    o.ask("status")
    o.ask("reset")
    o.ask("tests")
    o.step()
    o.user()
    o.ask("random 16 -")
    o.ask("status")


def operator():
    o = powered()
    for part in (with_keys, wrappings, derivations, uses, to_the_end):
        part(o)
    done = {command(each)[0] for each in o.lines}
    if done != set(Service):
        raise Surprise(f"not every service is used: {set(Service) - done}")
    return o


def drawing():
    """Each service that takes noise or draws, and the module taken up again."""
    o = Operator()
    o.power_on().step()
    o.officer()
    o.ask("reseed 6164")
    o.ask("generate 4 aes approved keep 9 32")
    o.user()
    o.ask("random 20 -")
    o.ask("seal 4 16 - 616263")
    o.ask("status")
    o.ask("reset")
    o.ask("tests")
    o.step()
    o.user()
    o.ask("random 16 -")
    o.ask("status")
    return o


def keeping():
    """An officer with slots, of which two are kept."""
    o = powered()
    with_keys(o)
    return o


LINES, DRAWS, KEPT = operator().lines, drawing().lines, keeping()
# The two keys of a backup, and the backup of what was kept.
TWO_KEYS = counted(KEYS)
BACKUP = backup_of(KEPT.machine.slots, TWO_KEYS)
# What is asked of the restored slots, and of the module behind a Reset.
RESTORED = [
    line("slot", 0),
    line("slot", 2),
    "random 20 -",
    "role user",
    line("mac", 2, "sha256", 32, TEXT),
    line("sealiv", 0, 16, IV, AAD, TEXT),
    "reset",
    "status",
]


def frames_of(lines):
    """The frames of the commands that lines spell, of which every third is numbered."""
    return [frame(*command(each), at // NUMBERED + 1 if at % NUMBERED == NUMBERED - 1 else None) for at, each in enumerate(lines)]


def recorded(frames):
    """A transcript of a run over these frames."""
    machine = Machine(FILES["image"], digest_of(FILES["digest"]), FILES["noise"])
    made = b""
    for each in frames:
        head = 12 if each[1] == 2 else 8
        reply = machine.command(each[2], each[head:], int.from_bytes(each[8:12], "big") if head == 12 else None)
        made += each + reply.spelling()
    return made


def vectors_of(turn):
    """A vector for each word, which passes."""
    text, key, label = counted(turn + 20), counted((16, 24, 32)[turn % 3]), b"label"[:turn]
    for alg, name in enumerate(("256", "384", "512"), 1):
        yield line(f"sha{name}", text, functions.hash_of(alg, text))
        yield line(f"hmac{name}", key, text, functions.hmac(alg, key, text))
    ciphertext, tag = sealed(key, IV, AAD, text)
    yield line("seal", key, IV, AAD, text, ciphertext, tag)
    yield line("open", key, IV, AAD, ciphertext, tag, text)
    yield line("open", key, IV, AAD, ciphertext, turned(tag), "fail")
    yield line("wrap", key, LOW, wrapped(LOW, key))
    yield line("unwrappad", key, padded(text, key), text)
    yield line("unwrap", key, turned(wrapped(LOW, key)), "fail")
    yield line("derive", key, label, AAD, functions.derive(key, label, AAD, turn + 30))
    yield line("drbg", HIGH, LOW, label, functions.generate(b"", functions.instantiate(HIGH, LOW, label), turn + 30)[0])


def vectors():
    """Five turns of vectors with a comment before each, a vector that fails, and a last one without a line feed."""
    made = []
    for turn in range(5):
        made += [f"# turn {turn}", *vectors_of(turn)]
    return "\n".join([*made, "", "sha256 616263 00", line("hmac256", LOW, TEXT, functions.hmac(1, LOW, TEXT))]).encode()


FRAMES = frames_of(LINES)
STREAM, TRANSCRIPT = b"".join(FRAMES), recorded(FRAMES)
# How many of the commands the short inputs have, which end in a fault.
FEW = 9
INPUTS = {
    "frames": STREAM,
    "frames_cut": STREAM[:-1],
    "frames_bad": b"".join(FRAMES[:FEW]) + b"\xc5\1\4\7" + STREAM[:100],
    "draws": b"".join(frames_of(DRAWS)),
    "lines": b"# all services\n" + b"\n".join(LINES),
    "lines_bad": b"\n".join(LINES[:FEW]) + b"\nfrob\n" + LINES[0] + b"\n",
    "kept": b"\n".join(KEPT.lines),
    "kept_by_nobody": b"\n".join(KEPT.lines) + b"\nrole user\n",
    "restored": "\n".join(RESTORED).encode(),
    "vectors": vectors(),
    "vectors_bad": b"\n".join(vectors().split(b"\n")[:FEW]) + b"\nsha256 6\n" + vectors()[:100],
    "transcript": TRANSCRIPT,
    "transcript_cut": TRANSCRIPT[:-1],
    "transcript_unlawful": recorded(FRAMES[:FEW]) + FRAMES[0] + TRANSCRIPT[8:28] + b"\0\0\0\1" + TRANSCRIPT[:100],
    "transcript_bad": recorded(FRAMES[:FEW]) + b"\xc5\1\4\0\0\0\0\0\x5c\1\4\x11" + TRANSCRIPT[:100],
    "nothing": b"",
}

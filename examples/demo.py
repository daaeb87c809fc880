#!/usr/bin/env python3
"""Plays worked dialogues with Warlinden by the client beside it, and shows each command, its reply and what it means.

    demo.py [--numbered] [--at-once] -- PROGRAM

PROGRAM is ./warlinden or the program that it builds. With `--numbered` some commands have sequence numbers. With `--at-once` the
program is a build that reads its input whole.
"""
import os
import subprocess
import sys
import tempfile

from client import (
    EXIT_STATUSES, TAG_LENGTH, Domain, Ended, Kind, Module, Service, State, Status, check_value, command_frame, derive_body, entry_header, exit_in_words,
    image_digest, open_body, parts_of_sealed, read_reply, run, seal_body, show_exchange, unwrap_body,
)
from transcript import pair

# The dialogues of the demo: what is done, the service and the body, and of an expected refusal its status and reason. A body that
# needs what a service gave before is a function of the payloads by their services.
HEADER = entry_header(3, Kind.MacKey, Domain.Other, False, 100, 4)
QUESTION = b"what do ya want for nothing?"
JEFE_MAC = bytes.fromhex("5bdcc146bf60754e")
FEW, UNASKED = Status.BadLength, Status.NotInState
DIALOGUE = [
    ("the officer's role, before the module has power", Service.SelectRole, b"\x01", UNASKED, "roles come after the tests"),
    ("power on; tests are due after every third use", Service.PowerOn, b"\0\0\0\3"),
    ("what everyone may see", Service.ShowStatus, b""),
    ("the self-tests, please", Service.RequestTests, b""),
    ("first of three steps: HMAC-SHA-256", Service.TestStep, b""),
    ("second: the image", Service.TestStep, b""),
    ("third: the generator, and its seed from 1,408 bytes of noise", Service.TestStep, b""),
    ("the officer's role", Service.SelectRole, b"\x01"),
    ("name and version", Service.ShowVersion, b""),
    ("a MAC key of four bytes for slot 3, with 100 uses", Service.EntryBegin, HEADER),
    ("five bytes of it", Service.EntryBytes, b"Jefe\0", FEW, "the key has four bytes, and nothing of the five is kept"),
    ("four bytes of it", Service.EntryBytes, b"Jefe"),
    ("their check value", Service.EntryCommit, check_value(HEADER, b"Jefe")),
    ("what slot 3 holds, but for its bytes", Service.ShowSlot, b"\3"),
    ("the user's role", Service.SelectRole, b"\x02"),
    ("SHA-256 of `abc`", Service.Hash, b"\1abc"),
    ("eight bytes of HMAC-SHA-256 under slot 3", Service.Mac, b"\3\1\x08" + QUESTION),
    ("the same eight bytes, to be verified; the third use, so tests are due", Service.MacVerify, b"\3\1\x08" + JEFE_MAC + QUESTION),
]
NUMBERED = [
    ("a numbered command, the first", Service.ShowStatus, b""),
    ("the same number again", Service.ShowStatus, b"", Status.OutOfOrder, "it was taken already"),
]
LAST = ("all slots are emptied", Service.Reset, b"")
TEXT, AAD = b"attack at dawn", b"to: all"


def opening(slot, sealed, turned=0):
    """Opens what Seal gave, with so many of the last tag's bits turned."""
    iv, ciphertext, tag = parts_of_sealed(sealed)
    return open_body(slot, iv, ciphertext, tag[:-1] + bytes([tag[-1] ^ turned]), AAD)


# A run of its own, in which keys are made, used, and zeroised with all that came of them.
KEYS = [
    ("power on; tests are never due again by themselves", Service.PowerOn, b"\0\0\0\0"),
    ("the self-tests, please", Service.RequestTests, b""),
    ("first of three steps: HMAC-SHA-256", Service.TestStep, b""),
    ("second: the image", Service.TestStep, b""),
    ("third: the generator, and its seed", Service.TestStep, b""),
    ("the officer's role", Service.SelectRole, b"\x01"),
    ("a wrapping key of 32 random bytes in slot 0", Service.Generate, entry_header(0, Kind.WrappingKey, Domain.Approved, False, 9, 32)),
    ("an AES key likewise in slot 1, for export", Service.Generate, entry_header(1, Kind.AesKey, Domain.Approved, True, 9, 32)),
    ("the key of slot 1 leaves, wrapped under slot 0", Service.Wrap, b"\0\1"),
    ("and comes back into slot 2", Service.Unwrap, lambda given: unwrap_body(0, 2, Kind.AesKey, given[Service.Wrap], False, 9)),
    ("slot 2 is not for export", Service.Wrap, b"\0\2", Status.NotExportable, "what was unwrapped without the flag stays here"),
    ("a derivation key in slot 3", Service.Generate, entry_header(3, Kind.DerivationKey, Domain.Approved, False, 9, 32)),
    ("a MAC key in slot 4, derived from slot 3", Service.Derive, derive_body(3, 4, Kind.MacKey, 32, b"demo", b"", False, 9)),
    ("16 random bytes", Service.Random, b"\0\0\0\x10"),
    ("fresh noise for the generator, 256 bytes", Service.Reseed, b""),
    ("the user's role", Service.SelectRole, b"\x02"),
    ("a text, sealed under slot 1", Service.Seal, seal_body(1, TEXT, AAD, TAG_LENGTH)),
    ("opened under slot 2, which has the same key", Service.Open, lambda given: opening(2, given[Service.Seal])),
    ("the same with one bit of the tag turned", Service.Open, lambda given: opening(2, given[Service.Seal], 1), Status.AuthFailed,
     "no byte of the text is given"),
    ("eight bytes of HMAC-SHA-256 under the derived key", Service.Mac, b"\4\1\x08" + TEXT),
    ("the officer's role", Service.SelectRole, b"\x01"),
    ("slot 0 and all that was unwrapped under it", Service.ZeroiseTree, b"\0"),
    ("slot 2, which came of slot 0", Service.ShowSlot, b"\2"),
    ("slot 1, which didn't", Service.ShowSlot, b"\1"),
    ("slot 3 and all that was derived from it", Service.ZeroiseTree, b"\3"),
    ("slot 4, which came of slot 3", Service.ShowSlot, b"\4"),
]
# The same module over an image of which a byte was changed.
CHANGED = [
    ("power on", Service.PowerOn, b"\0\0\0\0"),
    ("the self-tests, please", Service.RequestTests, b""),
    ("first step: HMAC-SHA-256", Service.TestStep, b""),
    ("second: the image", Service.TestStep, b"", Status.TestFailed, "it is not the image that the digest was made of"),
    ("the user's role", Service.SelectRole, b"\x02", UNASKED, "after a failed test there is only ShowStatus, ShowVersion and Reset"),
    ("what everyone may see", Service.ShowStatus, b""),
]

# The same commands as lines that a person types, with the replies that each must get.
NO_BLOCK = "0" * 24
ABC_DIGEST = "ba7816bf8f01cfea414140de5dae2223b00361a396177a9cb410ff61f20015ad"
TYPED = [
    ("poweron 0", f"Ok Init 0 0000 {NO_BLOCK} -"),
    ("tests", f"Ok SelfTest 0 0000 {NO_BLOCK} -"),
    ("step", f"Ok SelfTest 0 0000 {NO_BLOCK} -"),
    ("step", f"Ok SelfTest 0 0000 {NO_BLOCK} -"),
    ("step", f"Ok Approved 0 0000 {NO_BLOCK} -"),
    ("role user", f"Ok User 0 0000 {NO_BLOCK} -"),
    ("hash sha256 616263", f"Ok User 1 0000 {NO_BLOCK} {ABC_DIGEST}"),
    ("mac 3 sha256 32 616263", f"EmptySlot User 0 0000 {NO_BLOCK} -"),
]
# Lines whose keys are backed up, and lines to a module into which they were restored, with the replies that each must get.
BACKED_UP = [line for line, _ in TYPED[:5]] + ["role officer", "begin 3 mac other export 100 4", "bytes 4a656665"]
BACKED_UP += [f"commit {check_value(entry_header(3, Kind.MacKey, Domain.Other, True, 100, 4), b'Jefe').hex()}", "generate 0 aes approved keep 100 32"]
RESTORED = [
    ("slot 3", "Ok Officer 0 0000 010300010400000000000064 -"),
    ("slot 0", f"Ok Officer 0 0000 {NO_BLOCK} -"),
    ("role user", f"Ok User 0 0000 {NO_BLOCK} -"),
    (f"mac 3 sha256 8 {QUESTION.hex()}", f"Ok User 0 0000 {NO_BLOCK} {JEFE_MAC.hex()}"),
]
# Its first bytes; where its parts begin and end, which are a mark, the number of keys, what the key is for, the key, and a tag.
ONE_KEPT, BACKUP_ENDS, BAD_BACKUP = b"SMB1\1\3", (0, 4, 5, 13, 29, 61), 15
# Test vectors of the algorithms, and the report on them.
VECTORS = [
    (f"sha256 616263 {ABC_DIGEST}", "1 pass"),
    ("wrap 000102030405060708090a0b0c0d0e0f 00112233445566778899aabbccddeeff 1fa68b0a8112b447aef34bd8fb5a7b829d3e862371d2cfe5", "2 pass"),
    ("open 00000000000000000000000000000000 000000000000000000000000 - - 58e2fccefa7e3061367f1d57a4e7455b fail", "3 pass"),
]


def numbered_as(lines, sequence=None):
    """Lines of a dialogue, each with the number of its command."""
    return [(line, sequence) for line in lines]


def first_dialogue(with_numbers):
    return numbered_as(DIALOGUE) + (numbered_as(NUMBERED, 1) if with_numbers else []) + numbered_as([LAST])


def frame_of(line, sequence, given):
    service, body = line[1:3]
    return command_frame(service, body(given) if callable(body) else body, sequence)


def known_frames(lines, given):
    """The frames of the lines up to the first that needs what wasn't given yet."""
    frames = []
    for line, sequence in lines:
        try:
            frames.append(frame_of(line, sequence, given))
        except KeyError:
            break
    return frames


def show_line(line, frame, reply, given):
    """Shows a line of the dialogue and keeps its payload, and says whether its reply is the one that it should be."""
    what, service, _, wanted, reason = (line + (Status.Ok, ""))[:5]
    show_exchange(frame, reply, what)
    if (reply.service, reply.status) != (service, wanted):
        print(f"    {reply.in_words()}. THIS IS NOT WHAT WAS EXPECTED: {wanted.name}")
        return False
    if service == Service.Open and reply.payload not in (b"", TEXT):
        print(f"    THIS IS NOT THE TEXT: {reply.payload!r}")
        return False
    if reply.payload:
        given[service] = reply.payload
    opened = f": {reply.payload.decode('ascii')}" if service == Service.Open and reply.payload else ""
    print(f"    {reply.in_words()}{opened}" + (f". A refusal, as expected: {reason}" if reason else ""))
    return True


def play(words, lines, transcript):
    """Each command once the reply to the one before it is there. A transcript is written of them."""
    given = {}
    with Module(words) as module:
        for line, sequence in lines:
            frame = frame_of(line, sequence, given)
            reply = module.ask_frame(frame)
            transcript.append(pair(frame, reply.frame))
            if not show_line(line, frame, reply, given):
                return 1
        status = module.end()
    print(f"The input ends: {exit_in_words(status)}")
    return status


def run_at_once(words, frames):
    """The replies to commands in one piece, and the exit status. The program's messages are dropped."""
    process = subprocess.Popen(words, stdin=subprocess.PIPE, stdout=subprocess.PIPE, stderr=subprocess.DEVNULL)
    process.stdin.write(b"".join(frames))
    process.stdin.close()
    replies = [read_reply(process.stdout) for _ in frames]
    status = process.wait()
    if None in replies:
        raise Ended(f"the replies ended, with status {status}")
    return replies, status


def play_at_once(words, lines, transcript):
    """For a build that reads its input whole: where a command needs an earlier reply, the run is made anew over the same noise."""
    given, shown, status = {}, 0, 0
    while shown < len(lines):
        frames = known_frames(lines, given)
        replies, status = run_at_once(words, frames)
        for (line, _), frame, reply in list(zip(lines, frames, replies))[shown:]:
            transcript.append(pair(frame, reply.frame))
            if not show_line(line, frame, reply, given):
                return 1
        if len(frames) == shown:
            raise Ended("a command needs what no reply gave")
        shown = len(frames)
    return status


def over_files(program, word, names, room, at_once):
    """The command for a word and the names of its files, which lie in this folder. `rt try` is told where each lies."""
    paths = [os.path.join(room, name) for name in names]
    if at_once:
        told = [part for name, path in zip(names, paths) for part in ("--data", f"{name}={path}")]
        return [*program, *told, "--", word, *names]
    return [*program, word, *paths]


def write_file(room, name, content):
    with open(os.path.join(room, name), "wb") as file:
        file.write(content)


def make_files(program, room, at_once):
    """Makes an image, its digest by the program itself, noise for a pass of the tests and a reseed, and keys. Says whether the digest is right."""
    image = b"abc"
    write_file(room, "image", image)
    digesting = over_files(program, "digest", ["image"], room, at_once)
    line = subprocess.run(digesting, stdin=subprocess.DEVNULL, stdout=subprocess.PIPE, stderr=subprocess.DEVNULL).stdout
    write_file(room, "digest", line)
    write_file(room, "noise", os.urandom(1408 + 256))
    write_file(room, "keys", os.urandom(64))
    print(f"The image has {len(image)} bytes, and the digest {line.decode('ascii', 'replace').strip()}")
    if line != image_digest(image).encode() + b"\n":
        print(f"    THIS IS NOT WHAT WAS EXPECTED: {image_digest(image)}")
        return False
    return True


def play_lines(words, rows, last=()):
    """Lines in one piece. Shows each with the line that it got, and says whether these are the ones that they should be."""
    typed = "".join(f"{line}\n" for line, _ in rows).encode()
    ran = subprocess.run(words, input=typed, stdout=subprocess.PIPE, stderr=subprocess.DEVNULL)
    written = ran.stdout.decode("ascii", "replace").splitlines()
    for (line, _), got in zip(rows, written):
        print(f"{line}\n    {got}")
    for got in written[len(rows) :]:
        print(f"    {got}")
    wanted = [reply for _, reply in rows] + list(last)
    if written != wanted:
        print(f"    THIS IS NOT WHAT WAS EXPECTED: {wanted}")
    return ran.returncode or int(written != wanted)


def back_up(words):
    """The backup of the keys that lines enter, which is shown as the table of its bytes has it; none where it isn't what it should be."""
    print("\n".join(BACKED_UP))
    ran = subprocess.run(words, input="".join(f"{line}\n" for line in BACKED_UP).encode(), stdout=subprocess.PIPE, stderr=subprocess.DEVNULL)
    backup = ran.stdout
    print(f"    {len(backup)} bytes, exit status {ran.returncode}:")
    for start, end in zip(BACKUP_ENDS, BACKUP_ENDS[1:]):
        print(f"    {backup[start:end].hex()}")
    if ran.returncode != 0 or len(backup) != BACKUP_ENDS[-1] or not backup.startswith(ONE_KEPT):
        print(f"    THIS IS NOT WHAT WAS EXPECTED: one key, in {BACKUP_ENDS[-1]} bytes")
        return None
    print("    That is a mark, one key, what it is for, the key itself, wrapped, and a tag. The key of slot 0 may not leave.")
    return backup


def show_backup(program, room, at_once):
    """A backup, lines to a module that has its keys, and the same backup with its last bit turned."""
    backup = back_up(over_files(program, "backup", ["keys", "image", "digest", "noise"], room, at_once))
    if backup is None:
        return 1
    write_file(room, "kept", backup)
    words = over_files(program, "restore", ["keys", "kept", "image", "digest", "noise"], room, at_once)
    status = play_lines(words, RESTORED)
    if status != 0:
        return status
    write_file(room, "kept", backup[:-1] + bytes([backup[-1] ^ 1]))
    ran = subprocess.run(words, stdin=subprocess.DEVNULL, stdout=subprocess.PIPE, stderr=subprocess.DEVNULL)
    print(f"The same backup with its last bit turned\n    exit status {ran.returncode}, {EXIT_STATUSES.get(ran.returncode)}")
    if (ran.returncode, ran.stdout) != (BAD_BACKUP, b""):
        print(f"    THIS IS NOT WHAT WAS EXPECTED: exit status {BAD_BACKUP}, and nothing written")
        return 1
    return 0


# Of a reply, the place of its state.
STATE_AT = 4


def show_verdict(words, transcript, what, wanted):
    """Has a transcript checked, shows the verdict, and says whether it is the one that it should be."""
    ran = subprocess.run(words, input=b"".join(transcript), stdout=subprocess.PIPE, stderr=subprocess.DEVNULL)
    verdict = ran.stdout.decode("ascii", "replace").strip()
    print(f"{what}\n    {verdict}, exit status {ran.returncode}")
    if (verdict, ran.returncode) != wanted:
        print(f"    THIS IS NOT WHAT WAS EXPECTED: {wanted}")
        return False
    return True


def check_dialogue(words, transcript):
    """The verdict on a recorded dialogue, and on the same where a reply tells another state."""
    count, at = len(transcript), 7
    if not show_verdict(words, transcript, f"The first dialogue, as it was recorded: {count} commands and their replies", (f"lawful {count}", 0)):
        return 1
    print("    Each reply is one that the rules allow after the ones before it. That a module gave them, no transcript can tell.")
    state = transcript[at].index(b"\x5c\x01") + STATE_AT
    changed = [*transcript[:at], transcript[at][:state] + bytes([State.User]) + transcript[at][state + 1 :], *transcript[at + 1 :]]
    what = f"The same, where reply {at + 1}, to SelectRole, tells the user's role in place of the officer's"
    if not show_verdict(words, changed, what, (f"pair {at + 1}", 16)):
        return 1
    print("    The officer's role was asked for, and so no other can come of it.")
    return 0


def demo(program, with_numbers, at_once):
    how = play_at_once if at_once else play
    with tempfile.TemporaryDirectory() as room:
        if not make_files(program, room, at_once):
            return 1
        words = over_files(program, "serve", ["image", "digest", "noise"], room, at_once)
        transcript = []
        status = how(words, first_dialogue(with_numbers), transcript)
        if status != 0:
            return status
        print("\nThe same module once more: keys that are made, used and zeroised")
        status = how(words, numbered_as(KEYS), [])
        if status != 0:
            return status
        print("\nThe same module for a person: each line that is typed, and the line that answers it")
        status = play_lines(over_files(program, "operate", ["image", "digest", "noise"], room, at_once), TYPED)
        if status != 0:
            return status
        print("\nA backup of the keys that lines enter, and another module that begins with them")
        status = show_backup(program, room, at_once)
        if status != 0:
            return status
        print("\nTest vectors of its algorithms, and the report on each")
        status = play_lines(over_files(program, "vectors", [], room, at_once), VECTORS, ["3 of 3"])
        if status != 0:
            return status
        write_file(room, "image", b"abd")
        print("\nAnd the module once more, where a byte of the image was changed")
        status = how(words, numbered_as(CHANGED), [])
        if status != 0:
            return status
        print("\nWas all of that lawful? A recorded dialogue is checked by whoever has it, without a module and without keys")
        return check_dialogue(over_files(program, "check", [], room, at_once), transcript)


def main(words):
    options, program = words, []
    if "--" in words:
        options, program = words[: words.index("--")], words[words.index("--") + 1 :]
    if program and set(options) <= {"--numbered", "--at-once"}:
        return demo(program, "--numbered" in options, "--at-once" in options)
    print(__doc__.split("\n\n")[1], file=sys.stderr)
    return 2


if __name__ == "__main__":
    sys.exit(run(main))

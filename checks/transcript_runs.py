#!/usr/bin/env python3
"""Writes the transcripts that transcript_program checks, and what the checker of transcripts.py says of each, as it is and changed.

    python3 checks/transcript_runs.py            writes crates/transcript_program/args, stdout and data/
    python3 checks/transcript_runs.py --check    compares them with what it would write
    python3 checks/transcript_runs.py --list     says how many pairs and runs each transcript has

The transcripts are the dialogues of dialogue.py, whose replies are those of the model in machine.py; some with numbered commands, some with
entered bytes blanked, and some whose rest is no pair. Behind them stand those of transcript_rows.py. A row of the file beside a transcript is a run: how many of its bytes, the place of the
byte that is another, and its value. stdout has what the run writes, and behind it a line with these three and the exit status.
"""
import sys
from bisect import bisect_right

import stored_files
from dialogue import DIALOGUES
from dialogue_bodies import DIGEST, IMAGE, NOISE
from machine import Machine, frame
from machine_rules import COMMAND, NAMES, NUMBER, OK, OUT_OF_ORDER, REPLY, BadFrame, Public, frame_end, pair_at, read_command, read_head
from transcript_rows import TRANSCRIPTS
from transcripts import BAD_FRAME, LAWFUL, NOT_LAWFUL, TRUNCATED, after_pair, check

CRATE = "transcript_program"
# Dialogues that would take much room and tell little more, or nothing.
LONG = {"largest", "sealing", "draws", "draw_after_the_interval", "every_padded_length", "every_wrapped_length", "lasting_key", "hashes_and_macs"}
LONG |= {name for name in DIALOGUES if name.startswith("noise_ends") or name.endswith("_2")}
NUMBERED = ("bodies", "entry_bodies", "entries", "published", "first_uses", "periods", "period_ends_in_noise", "seconds", "worlds_of_entries_1")
BLANKED = ("published", "entries", "entry_bodies", "worlds_1", "worlds_of_entries_1")
ENTERS = (NUMBER["EntryBytes"], NUMBER["EntryCommit"])
TELLING = (NUMBER["ShowStatus"], NUMBER["ShowVersion"], NUMBER["ShowSlot"])


def split(stream, kind):
    """The whole frames at the front, and what stands behind them."""
    frames, at = [], 0
    try:
        while end := frame_end(stream, at, kind):
            frames.append(stream[at:end])
            at = end
    except BadFrame:
        pass
    return frames, stream[at:]


def woven(dialogue):
    """Each command's frame and its reply's, and behind them the bytes that are no whole command."""
    commands, rest = split(dialogue.stream, COMMAND)
    replies, _ = split(dialogue.replies, REPLY)
    assert len(commands) == len(replies)
    return b"".join(command + reply for command, reply in zip(commands, replies)) + rest


def numbered(dialogue):
    """The same commands with numbers, each of which is taken, to a module of their own; every ninth has the number that came before."""
    machine, transcript = Machine(IMAGE, DIGEST, NOISE), b""
    for place, asked in enumerate(split(dialogue.stream, COMMAND)[0]):
        command = read_command(asked)
        numbers = [machine.next - 1, machine.next] if place % 9 == 5 else [machine.next]
        for number in numbers:
            reply = machine.command(command.service, command.body, number)
            transcript += frame(command.service, command.body, number) + reply.spelling()
    return transcript


def blanked(transcript):
    """With zeros for the bodies of EntryBytes and EntryCommit."""
    bytes_now = bytearray(transcript)
    for at, reply, _ in pairs_of(transcript):
        command = read_command(transcript[at:reply])
        if command.service in ENTERS:
            bytes_now[reply - len(command.body) : reply] = bytes(len(command.body))
    return bytes(bytes_now)


def pairs_of(transcript):
    """Where each whole pair begins, where its reply does, and where it ends."""
    at = 0
    try:
        while pair := pair_at(transcript, at):
            yield (at, *pair)
            at = pair[1]
    except BadFrame:
        pass


# PowerOn with period 0, the tests, and ShowStatus, as they stand in the manual's frames: 196 bytes.
WORKED = bytes.fromhex(
    "c50101000000000400000000" "5c0101000100000000000000000000000000000000000000"
    "c501030000000000" "5c0103000200000000000000000000000000000000000000"
    "c501020000000000" "5c0102000200000000000000000000000000000000000000"
    "c501020000000000" "5c0102000200000000000000000000000000000000000000"
    "c501020000000000" "5c0102000300000000000000000000000000000000000000"
    "c501040000000000" "5c0104000300000000004010000000000000000000000000"
)
# The place of the fifth reply's state, and of its sixth pair.
FIFTH_STATE, SIXTH_PAIR = 144, 164


def changed(transcript, length, place, value):
    """What a row makes of a transcript."""
    front = transcript[:length]
    return front[:place] + bytes([value]) + front[place + 1 :] if place < length else front


def values_at(place, value, head, tells):
    """The values that a byte of a reply's head is given: the more where the command was done."""
    done = head.status == OK and head.number is None
    if place == 3:
        return range(18) if done else (OK, value ^ 1, 17)
    if place == 4:
        return range(9) if done else (value ^ 1, 7)
    if place in (6, 7):
        return (0, 1, 2, 7, 8, 13, 14) if done else (value ^ 1, value ^ 4)
    if 8 <= place < 20 and not tells:
        return (value ^ 1,) if place in (8, 15, 19) else ()
    if 8 <= place < 20:
        return ((value + 1) % 256, value ^ 0x80)
    return {0: (0x5D,), 1: range(4), 5: range(3), 20: (1,), 21: (1, 2), 22: (1, 0x80)}.get(place, ((value + 1) % 256, value ^ 0x08))


def kind_of(command, head):
    """Pairs of one kind are changed once."""
    service = command.service if command.service <= len(NAMES) else 0
    if head.number is not None and head.status != OUT_OF_ORDER:
        return 2, service if head.status == OK else 0
    return 1, service, head.status, head.code, head.approved


def rows_of_pair(transcript, at, reply):
    """Each byte of a pair's heads changed, and the first of its command's body."""
    command, head = read_command(transcript[at:reply]), read_head(transcript[reply : reply + 28])
    tells = head.status == OUT_OF_ORDER or (head.status == OK and head.service in TELLING)
    for place in range(at, min(reply, at + 13)):
        for turned in (0x01, 0x02) if place - at in (1, 2) else (0x01,):
            yield len(transcript), place, transcript[place] ^ turned
    for place in range(reply, reply + (24 if head.number is None else 28)):
        for value in values_at(place - reply, transcript[place], head, tells):
            if value != transcript[place]:
                yield len(transcript), place, value


def cuts_of(transcript):
    """The places about each end of some pairs' frames."""
    pairs = list(pairs_of(transcript))
    for at, reply, end in pairs[:: max(1, len(pairs) // 2)]:
        for place in (at + 7, reply, reply + 23, end - 1, end):
            yield place, place, 0


def rows_of(transcript, seen):
    """The runs of a transcript: as it is, cut, and each kind of pair that wasn't seen before with a byte changed."""
    rows = [(len(transcript), len(transcript), 0), *cuts_of(transcript)]
    for at, reply, _ in pairs_of(transcript):
        kind = kind_of(read_command(transcript[at:reply]), read_head(transcript[reply : reply + 28]))
        if kind not in seen:
            seen.add(kind)
            rows += rows_of_pair(transcript, at, reply)
    return list(dict.fromkeys(rows))


def worked_rows():
    """Of the six worked pairs each number of bytes, and each byte with some other values."""
    whole = len(WORKED)
    yield from ((length, length, 0) for length in range(whole + 1))
    for place, value in enumerate(WORKED):
        yield from ((whole, place, value ^ turned) for turned in (0x01, 0x02, 0x04, 0x80))
    yield whole, FIFTH_STATE, 4
    yield whole, 12, 0


def later_rows(transcript):
    """Whatever stands behind the fifth pair, which isn't lawful; and the fifth pair's state as it should be."""
    yield len(transcript), len(transcript), 0
    yield len(transcript), FIFTH_STATE, 3
    yield from ((length, length, 0) for length in range(SIXTH_PAIR - 2, len(transcript) + 1))
    yield from ((len(transcript), place, transcript[place] ^ 1) for place in range(len(transcript)))


def spread_rows(transcript):
    """A transcript cut near its end, and with bytes all over it changed."""
    size = len(transcript)
    yield from ((size - back, size - back, 0) for back in (1, 24, 100))
    yield from ((size, place, transcript[place] ^ 2) for place in range(6, size, size // 15))


def runs():
    """Each transcript by its name, and its rows."""
    seen = set()
    yield "worked", WORKED, list(dict.fromkeys(worked_rows()))
    unlawful = changed(WORKED, len(WORKED), FIFTH_STATE, 4)
    yield "worked_and_unlawful", unlawful, list(dict.fromkeys(later_rows(unlawful)))
    for name, of in DIALOGUES.items():
        if name in LONG:
            continue
        dialogue = of()
        transcript = woven(dialogue)
        yield name, transcript, rows_of(transcript, seen)
        if name in NUMBERED:
            transcript_of_numbers = numbered(dialogue)
            yield f"{name}_numbered", transcript_of_numbers, rows_of(transcript_of_numbers, seen)
        if name in BLANKED:
            blank = blanked(transcript)
            assert blank != transcript
            yield f"{name}_blanked", blank, rows_of(blank, seen)
    for name, of in TRANSCRIPTS.items():
        transcript = b"".join(b"".join(pair) for pair in of())
        # The first four rows have each another number of bytes that come at a time.
        whole = [(len(transcript), len(transcript), 0)] * 3
        yield f"rules_{name.lower()}", transcript, [*whole, *rows_of(transcript, seen), *spread_rows(transcript)]


def states_of(transcript):
    """For each pair's beginning the number of pairs before it and the public state, as far as these are lawful."""
    public = Public()
    for count, (at, *pair) in enumerate(pairs_of(transcript)):
        yield at, count, public
        public = after_pair(public, transcript, at, pair)
        if public is None:
            return


def verdict(transcript, row, states):
    """What is said of a row: from the pair on that has the changed byte or the cut, since those before it are as they were."""
    length, place, _ = row
    at, count, public = states[max(0, bisect_right(states, min(length, place), key=lambda state: state[0]) - 1)]
    return check(changed(transcript, *row), count, at, public)


def written():
    """The files of the program, by their names; and of each transcript the number of pairs and runs, and how often each status came."""
    files, descriptions, stdout, told = {}, "", [], []
    for name, transcript, rows in runs():
        files[f"data/{name}"] = transcript
        files[f"data/{name}_rows"] = b"".join(l.to_bytes(4, "big") + p.to_bytes(4, "big") + bytes([v]) for l, p, v in rows)
        descriptions += f"{name} {name}_rows\n"
        states, statuses = list(states_of(transcript)), []
        for row in rows:
            status, said = verdict(transcript, row, states)
            statuses.append(status)
            stdout.append(said + f"{name} {row[0]} {row[1]} {row[2]} {status}\n".encode())
        told.append((name, len(list(pairs_of(transcript))), statuses))
    return {**files, "args": descriptions.encode(), "stdout": b"".join(stdout)}, told


def compare_worked(stdout):
    """What the worked transcript is to give, whatever the checker says."""
    wanted = [b"\nlawful 6\nworked 196 196 0 0\n", b"\npair 5\nworked 196 144 4 16\n", b"\nworked 44 44 0 4\n", b"\nworked 196 12 0 3\n"]
    assert stdout.startswith(b"lawful 0\nworked 0 0 0 0\n") and all(stdout.count(each) == 1 for each in wanted)


def compare_services(files):
    """That each service is done in commands of both versions, and that each whole dialogue is lawful."""
    done = {1: set(), 2: set()}
    for name, transcript in files.items():
        if name.startswith("data/") and not name.endswith("_rows"):
            for _, reply, end in pairs_of(transcript):
                head = read_head(transcript[reply:end])
                done[1 if head.number is None else 2] |= {head.service} if head.status == OK else set()
    assert all(len(services) == len(NAMES) for services in done.values()), done


def main(words):
    files, told = written()
    compare_worked(files["stdout"])
    compare_services(files)
    if words == ["--list"]:
        for name, pairs, statuses in told:
            ends = ", ".join(f"{statuses.count(status)} end with {status}" for status in (LAWFUL, BAD_FRAME, TRUNCATED, NOT_LAWFUL))
            print(f"{name:34} {pairs:4} pairs, {len(statuses):4} runs: {ends}")
        return 0
    return stored_files.main(words, CRATE, files, "transcript_runs.py", f"{sum(len(statuses) for _, _, statuses in told)} checks")


if __name__ == "__main__":
    sys.exit(main(sys.argv[1:]))

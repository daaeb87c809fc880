"""Runs of lines whose slots are backed up, and of lines to a module into which a backup was restored."""
from backup_parts import (
    A_SLOT,
    BACKUP,
    DOMAINS,
    FILES,
    GOOD_AND_BAD,
    GROUPS,
    JEFE,
    KEY_BYTES,
    LONGEST,
    MAC,
    MOST_USES,
    NO_SLOT,
    PARTS,
    SHOW_SLOT_2,
    SLOT_2,
    Backing,
    Restoring,
    Run,
    backups_named,
    kept,
    key_of,
    uses_of,
    wrapped,
)
from line_dialogues import LONGEST_NOTE, QUESTION
from line_parts import Operator, Surprise, counted, line, sealed
from machine import Slot
from machine_backups import backup_of, joined
from machine_bodies import Kind
from machine_functions import derive, hmac
from machine_lines import BAD_LINE
from machine_words import NOT_OFFICER, run

START = ["poweron 0", "tests", "step", "step", "step"]
BEGUN = ["begin 2 mac other export 7 4", "bytes 4a656665"]
WHOLE = [*START, "role officer", *BEGUN, f"commit {hmac(1, JEFE, bytes.fromhex('020300010000000704'))[:8].hex()}"]
SHOWN = [f"slot {slot}" for slot in range(16)]
A_SLOT_STARTS = "534d4231" "01" "02030000000007" "04"


def joined_lines(lines):
    return "".join(f"{each}\n" for each in lines).encode()


def of_inputs(name, streams, status=0):
    """Runs of the word `backup`, with one status."""
    return Run(name, BACKUP, streams, [None], [status] * len(streams))


def expect(made, *wanted):
    """That what each input leads to is these bytes, whatever else the model says."""
    for stream, text in zip(made.inputs, wanted, strict=True):
        if run(made.words, FILES, stream) != (made.statuses[0], text):
            raise Surprise(f"{made.lines}: {text!r} isn't written")
    return made


def expect_starts(made, *starts):
    """That the backup of each input begins so."""
    for stream, start in zip(made.inputs, starts, strict=True):
        status, written = run(made.words, FILES, stream)
        if status != 0 or not written.hex().startswith(start):
            raise Surprise(f"{made.lines}: {status} and {written.hex()}")
    return made


def nothing():
    """No line, and lines that make no command: the module has no power."""
    return expect(of_inputs("nothing", [b"", b"\n", b"# a note", b"\n# a note\n\n"], NOT_OFFICER), b"", b"", b"", b"")


def no_slot():
    """An officer without keys."""
    return expect(of_inputs("no_slot", [Backing().input()]), NO_SLOT)


def a_slot():
    """A kept slot."""
    o = Backing()
    o.keep(2, Kind.MAC, JEFE, uses=7)
    made = of_inputs("a_slot", [o.input()])
    return expect_starts(expect(made, A_SLOT), A_SLOT_STARTS)


def combinations():
    """Each kind and domain with each length, with one use or the most."""
    streams = []
    for group in GROUPS:
        o = Backing()
        for slot, (kind, domain, length) in enumerate(group):
            o.keep(slot, kind, key_of(kind, domain, length), domain, uses=uses_of(slot))
        streams.append(o.input())
    return of_inputs("combinations", streams)


def sixteen_slots():
    """All slots, of 64 bytes each, which are entered from the last on."""
    o = Backing()
    for slot in reversed(range(16)):
        o.keep(slot, Kind.MAC, counted(64 + slot)[slot:], 1, uses=uses_of(slot))
    return expect(of_inputs("sixteen_slots", [o.input()]), LONGEST)


def some_kept():
    """What may not leave, what is spent and what is empty is left out beside what is kept."""
    o = Backing()
    o.keep(0, Kind.AES, counted(16), export="keep")
    o.keep(1, Kind.AES, counted(16))
    o.keep(3, Kind.MAC, JEFE, uses=1)
    o.keep(4, Kind.MAC, JEFE, uses=2)
    o.keep(5, Kind.KDF, counted(20), 1, "keep", 1)
    o.keep(15, Kind.KDF, counted(20), 1, uses=1)
    o.use(3, 4)
    records = [kept(1, Kind.AES, counted(16)), kept(4, Kind.MAC, JEFE, uses=1), kept(15, Kind.KDF, counted(20), 1, 1)]
    return expect(of_inputs("some_kept", [o.input()]), joined(MAC, records))


def none_kept():
    """A slot that may not leave and a spent one."""
    o = Backing()
    o.keep(2, Kind.MAC, JEFE, export="keep")
    o.keep(7, Kind.MAC, JEFE, uses=1)
    o.use(7)
    return expect(of_inputs("none_kept", [o.input()]), NO_SLOT)


def of_each_origin():
    """Keys that were generated, unwrapped and derived, for export or not; and what is left after zeroising."""
    o = Backing()
    o.keep(0, Kind.KEK, counted(32))
    o.keep(1, Kind.KDF, counted(40))
    for slot, export in ((2, "export"), (3, "keep")):
        o.ask(line("generate", slot, "aes", "approved", export, 5, 24))
        o.ask(line("unwrappad", 0, slot + 2, "mac", export, 6, wrapped(JEFE, counted(32))))
        o.ask(line("derive", 1, slot + 4, "kdf", export, 7, 33, b"label", b"context"))
    streams = [o.input()]
    for zeroise in ("zeroise 2", "zeroisetree 0", "zeroiseall"):
        o.ask(zeroise)
        streams.append(o.input())
    return expect_starts(of_inputs("of_each_origin", streams), "534d42310500", "534d42310400", "534d42310201", NO_SLOT.hex())


def not_officer():
    """Each state but the officer's: nothing is written."""
    dialogues = [
        ["status"],
        START[:1],
        START[:2],
        START[:3],
        START[:4],
        START,
        [*START, "role user"],
        [*START, "role officer", "role none"],
        [*WHOLE, "role user"],
        [*WHOLE, *BEGUN[:1]],
        [*WHOLE, *BEGUN],
        [*WHOLE, "tests"],
        [*WHOLE, "tests", "step", "step"],
        [*WHOLE, "reset"],
        ["poweron 1", *WHOLE[1:], "hash sha256 616263"],
    ]
    return of_inputs("not_officer", list(map(joined_lines, dialogues)), NOT_OFFICER)


def in_error():
    """The image is another, or the noise ends or is stuck."""
    made = of_inputs("in_error", [joined_lines([*WHOLE, "version"])], NOT_OFFICER)
    for image, noise in (("image_changed", "noise"), ("image", "noise_of_1407"), ("image", "noise_of_zeros")):
        yield made._replace(words=("backup", "keys", image, "digest", noise))


def officer_again():
    """Entries that came to nothing, and lines that lead back to the officer's role or are refused in it."""
    dialogues = [
        [*START, "role officer", *BEGUN, "abort"],
        [*START, "role officer", *BEGUN, "commit 0000000000000000"],
        [*WHOLE, "reset", *START[1:], "role officer"],
        [*WHOLE, "role user", "role officer"],
        [*WHOLE, "tests", "step", "step", "step"],
        [*WHOLE, "poweron 0", "slot 16", "step", "zeroise 16", "bytes 00"],
        [*WHOLE, *BEGUN, "abort"],
        ["poweron 2", *WHOLE[1:], "hash sha256 616263", "hash sha256 616263", "step", "step", "step"],
    ]
    return expect(of_inputs("officer_again", list(map(joined_lines, dialogues))), *[NO_SLOT] * 3, *[A_SLOT] * 5)


def bad_lines():
    """The number of the first line that is no command, in each state, and nothing else."""
    whole = joined_lines(WHOLE)
    streams = {
        b"frob\n": 1,
        b"status\nfrob\nfrob\n": 2,
        b"keys image digest noise\n": 1,
        whole + b"slot\n": 10,
        whole + b"random 65536 -\nslot 2 \nstatus\n": 11,
        whole + b"# a note\n\nSlot 2\n" + whole: 12,
        whole + b"slot": 10,
        whole + b"role user\nslot": 11,
        whole + b"\r\n": 10,
        b"# a note\n" * 99 + b"frob": 100,
        whole + LONGEST_NOTE + b" \nstatus\n": 10,
        whole + LONGEST_NOTE + b" ": 10,
    }
    return expect(of_inputs("bad_lines", list(streams), BAD_LINE), *(f"bad line {number}\n".encode() for number in streams.values()))


def commented():
    """Comments, long ones too, and a last line without its line feed."""
    start, last = b"# a note\npoweron 0\n\ntests\n#\nstep\nstep\nstep\n", b"role officer"
    streams = [start + last + b"\n", start + last, start + last + b"\n# a note", start + LONGEST_NOTE + b"\n" + last + b"\n" + LONGEST_NOTE]
    return expect(of_inputs("commented", streams), *[NO_SLOT] * 4)


def much_is_answered():
    """Replies of many bytes, none of which is written."""
    o = Backing()
    o.ask("random 65536 -")
    o.ask(line("hash", "sha512", bytes(60_000)))
    o.keep(2, Kind.MAC, JEFE, uses=7)
    o.ask("random 65536 -")
    return expect(of_inputs("much_is_answered", [o.input()]), A_SLOT)


def other_keys():
    """The same slot under other keys, and under each of the two with another."""
    stream = joined_lines(WHOLE)
    for keys in ("other_keys", "keys_with_another_kek", "keys_with_another_mac", "keys_exchanged"):
        yield expect_starts(of_inputs("a_slot_again", [stream])._replace(words=("backup", keys, *PARTS)), A_SLOT_STARTS)


def group_backup(group):
    slots = [Slot(kind, domain, 1, uses_of(slot), key_of(kind, domain, length)) for slot, (kind, domain, length) in enumerate(group)]
    return backup_of(slots, KEY_BYTES)


def combinations_restored():
    """What slots of each kind, domain and length hold, and what each gives under a wrapping, derivation, MAC and sealing."""
    used = ["zeroise 15"]
    for slot in range(15):
        used += [f"wrappad {slot} {(slot + 1) % 15}", f"derive {slot} 15 mac keep 9 32 6c 63", "role user", "mac 15 sha256 32 616263"]
        used += [f"mac {slot} sha512 64 616263", f"seal {slot} 12 61 616263", "role officer", "zeroise 15"]
    backups = [group_backup(group) for group in GROUPS]
    name = "combinations_restored"
    return Run(name, backups_named(f"{name}_kept"), [joined_lines(SHOWN), joined_lines(used)], backups, [0] * 2 * len(backups))


def few_and_many():
    """Backups of no slot, of one, of the first and the last, and of sixteen."""
    last = kept(15, Kind.AES, counted(16), 1, MOST_USES)
    backups = [NO_SLOT, A_SLOT, joined(MAC, [last]), joined(MAC, [kept(0, Kind.KEK, counted(24), uses=1), last]), LONGEST]
    return Run("few_and_many", backups_named("few_and_many_kept"), [joined_lines(SHOWN)], backups, [0] * len(backups))


def one_slot():
    """A slot after it was restored, and all around it."""
    o = Restoring(A_SLOT)
    o.ask("slot 2", "Ok Officer 0 0000 010300010400000000000007 -")
    o.ask("slot 1", "Ok Officer 0 0000 Z -")
    o.ask("status", "Ok Officer 0 0000 000040100000000000000000 -")
    o.ask("poweron 0", "NotInState Officer 0 0000 Z -")
    o.ask("generate 2 mac other keep 1 32", "OccupiedSlot")
    o.user()
    o.ask(line("mac", 2, "sha256", 32, QUESTION), f"Ok User 0 0000 Z {hmac(1, JEFE, QUESTION).hex()}")
    o.ask("slot 2", "Ok User 0 0000 010300010400000000000006 -")
    return o.restored("one_slot")


def no_line():
    """Nothing is asked, and so nothing is written."""
    return Run("no_line", backups_named("one_slot_kept"), [b"", b"\n", b"# a note"], [A_SLOT], [0, 0, 0])


def bad_line_behind():
    """Lines are counted from the first of the input, and those before the bad one are answered."""
    streams = [b"frob\n", b"slot 2\n# a note\nslot 2\nslot\nslot 2\n", b"role user\nmac 2 sha256 8 -\nmac", b"slot 2\n" + LONGEST_NOTE + b" \n"]
    return Run("bad_line_behind", backups_named("one_slot_kept"), streams, [A_SLOT], [BAD_LINE] * len(streams))


def last_use():
    """A key with one use, and one with the most."""
    o = Restoring(joined(MAC, [kept(2, Kind.MAC, JEFE, uses=1), kept(3, Kind.MAC, JEFE, uses=MOST_USES)]))
    o.user()
    for slot, again in ((2, "Spent"), (3, "Ok")):
        o.ask(f"mac {slot} sha256 8 616263", f"Ok User 0 0000 Z {hmac(1, JEFE, b'abc')[:8].hex()}")
        o.ask(f"mac {slot} sha256 8 616263", again)
    o.ask("slot 2", "Ok User 0 0000 010300010400000000000000 -")
    o.ask("slot 3", "Ok User 0 0000 0103000104000000fffffffd -")
    return o.restored("last_use")


FOUR = {Kind.KEK: counted(32), Kind.AES: counted(24), Kind.MAC: counted(20), Kind.KDF: counted(50)}


def officer_uses(o, domain):
    for slot, (kind, key) in enumerate(FOUR.items()):
        o.ask(f"slot {slot}", f"Ok Officer 0 0000 01{kind:02x}{domain:02x}01{len(key):02x}00000000000064 -")
    for slot, key in list(enumerate(FOUR.values()))[1:]:
        o.ask(f"wrappad 0 {slot}", f"Ok Officer {domain} 0000 Z {wrapped(key, counted(32)).hex()}")
    o.ask(line("unwrappad", 0, 4, "mac", "keep", 9, wrapped(JEFE * 4, counted(32))), f"Ok Officer {domain} 0000 Z -")
    o.ask(line("derive", 3, 5, "mac", "keep", 9, 32, b"label", b""), f"Ok Officer {domain} 0000 Z -")
    o.ask(f"generate 6 kek {DOMAINS[1 - domain]} keep 9 32")
    o.ask("wrappad 6 2", "WrongDomain")


def user_uses(o, domain):
    o.user()
    derived = derive(counted(50), b"label", b"", 32)
    for slot, key in ((2, counted(20)), (4, JEFE * 4), (5, derived)):
        o.ask(f"mac {slot} sha384 48 616263", f"Ok User {domain} 0000 Z {hmac(2, key, b'abc').hex()}")
    ciphertext, tag = sealed(counted(24), counted(12), b"aad", b"text")
    wanted = "WrongDomain" if domain else f"Ok User 0 0000 Z {(ciphertext + tag).hex()}"
    o.ask(line("sealiv", 1, 16, counted(12), b"aad", b"text"), wanted)
    o.ask(line("open", 1, counted(12), b"aad", ciphertext, tag), f"Ok User {domain} 0000 Z {b'text'.hex()}")
    o.ask("seal 1 16 - 616263", f"Ok User {domain}")


def used():
    """A restored key of each kind in each service that takes it: it may leave, and stays in its domain."""
    for domain, name in enumerate(DOMAINS):
        o = Restoring(joined(MAC, [kept(slot, kind, key, domain) for slot, (kind, key) in enumerate(FOUR.items())]))
        officer_uses(o, domain)
        user_uses(o, domain)
        yield o.restored(f"used_{name}")


def ancestry():
    """Restored slots come of none: slot 1, which was unwrapped under slot 0, isn't in its tree any more. What is made of them is."""
    o = Backing()
    o.keep(0, Kind.KEK, counted(32))
    o.ask(line("unwrappad", 0, 1, "mac", "export", 9, wrapped(JEFE, counted(32))))
    o.keep(2, Kind.KDF, counted(32))
    o = Restoring(backup_of(o.machine.slots, KEY_BYTES))
    o.ask(line("unwrappad", 0, 3, "mac", "export", 9, wrapped(JEFE, counted(32))))
    o.ask("derive 2 4 mac keep 9 32 - -")
    for tree, gone in ((0, (0, 3)), (2, (2, 4))):
        o.ask(f"zeroisetree {tree}")
        for slot in gone:
            o.ask(f"slot {slot}", "Ok Officer 0 0000 Z -")
        o.ask("slot 1", "Ok Officer 0 0000 010300010400000000000009 -")
    return o.restored("ancestry")


def zeroised():
    """Restored slots are emptied in each of the ways."""
    backup = joined(MAC, [kept(slot, Kind.MAC, JEFE, uses=9) for slot in (1, 2, 3)])
    ways = {"alone": ["zeroise 2"], "in_all": ["zeroiseall"], "by_reset": ["reset", *START[1:], "role officer"]}
    for name, lines in ways.items():
        o = Restoring(backup)
        for each in lines:
            o.ask(each)
        for slot in (1, 2, 3):
            left = "010300010400000000000009" if name == "alone" and slot != 2 else "Z"
            o.ask(f"slot {slot}", f"Ok Officer 0 0000 {left} -")
        yield o.restored(f"zeroised_{name}")


def draws():
    """The generator gives what it gives after the same start by lines, and the noise is taken up to there."""
    other = Operator(noise="noise_of_1408").start()
    other.officer()
    drawn = other.ask("random 16 -")
    o = Restoring(A_SLOT, noise="noise_of_1408")
    o.ask("random 16 -", f"Ok Officer 1 0000 Z {drawn}")
    o.ask("reseed -", "NoiseFault Error 0 0300 Z -")
    return o.restored("draws")


def entered_beside():
    """Entries into another slot, and into a restored one."""
    o = Restoring(A_SLOT)
    o.enter(3, "mac", JEFE, export="export", uses=5)
    o.begin(2, "mac", length=4)
    o.ask(line("bytes", JEFE))
    o.commit(JEFE, "OccupiedSlot")
    o.show(2, 3)
    return o.restored("entered_beside")


def no_period():
    """Tests are never due again, and each is made before its first use."""
    o = Restoring(A_SLOT)
    o.user()
    for _ in range(5):
        o.ask("hash sha256 616263")
    o.ask("status", "Ok User 0 0000 000040120000000000000000 -")
    return o.restored("no_period")


def never_officer():
    """The tests fail, so nothing is restored, whatever the backup is."""
    for image, noise in (("image_changed", "noise"), ("image", "noise_of_1407"), ("image", "noise_of_zeros")):
        words = ("restore", "keys", "good_and_bad", image, "digest", noise)
        yield Run(SLOT_2, words, [SHOW_SLOT_2], GOOD_AND_BAD, [NOT_OFFICER] * 2)


DIALOGUES = (
    nothing, no_slot, a_slot, combinations, sixteen_slots, some_kept, none_kept, of_each_origin, not_officer, in_error, officer_again,
    bad_lines, commented, much_is_answered, other_keys, combinations_restored, few_and_many, one_slot, no_line, bad_line_behind, last_use,
    used, ancestry, zeroised, draws, entered_beside, no_period, never_officer,
)

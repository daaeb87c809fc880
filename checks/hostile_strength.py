#!/usr/bin/env python3
"""Whether the stored runs of hostile_program tell the models from models with one mistake: each is to have at least one run end otherwise.

    python3 checks/hostile_strength.py     tries every mistake; says which runs tell it, and fails where none does
"""
import os
import subprocess
import sys
import tempfile

import stored_files

HERE = os.path.dirname(os.path.abspath(__file__))
WORLDS, MACHINE = "hostile_worlds.py", "machine.py"
COPIED = (
    "hostile_runs.py hostile_worlds.py line_parts.py machine.py machine_bodies.py machine_functions.py machine_lines.py machine_rules.py "
    "machine_backups.py machine_sessions.py machine_vectors.py machine_words.py stored_files.py transcripts.py"
).split()

# The name of a mistake, and the text of the model that it exchanges.
MISTAKES = [
    # Reads.
    ("a failed read is the end of the input", WORLDS, "            status, pieces = READ_FAILED, does.closing[done] if does.closing else []\n", "            status, pieces = does.ending\n"),
    ("a failed read is a failed write", WORLDS, "            status, pieces = READ_FAILED, does", "            status, pieces = WRITE_FAILED, does"),
    ("a failed read is tried again", WORLDS, "        if good < times:\n            raise ReadFault\n", "        if good < times:\n            self.reads += 1\n            self.read(times - good)\n"),
    ("a failed read takes its bytes", WORLDS, "            raise ReadFault\n", "            self.left = max(0, self.left - self.step)\n            raise ReadFault\n"),
    ("a read is made where the bytes just came", WORLDS, "        elif self.came < need:\n            self.read(-(-(need - self.came) // self.step))\n", "        elif self.came <= need:\n            self.read(-(-(need - self.came) // self.step) or 1)\n"),
    ("the end of the input isn't read", WORLDS, "            self.read(-(-self.left // self.step) + 1)\n", "            self.read(-(-self.left // self.step))\n"),
    ("a session reads its input", WORLDS, "        return Script([], 0, (0, [summary_of(machine, session(int(words[1]), int(words[2])))]), False)", "        return Script([], 1, (0, [summary_of(machine, session(int(words[1]), int(words[2])))]), True)"),
    ("a digest reads its input", WORLDS, "    return Script([], 0, (0, [mac.hex().encode() + b\"\\n\"]), False)", "    return Script([], 1, (0, [mac.hex().encode() + b\"\\n\"]), True)"),
    ("a refused run reads its input", WORLDS, "    return Script([], 0, (status, []), False)", "    return Script([], 1, (status, []), True)"),
    ("a bad frame is told where its header is whole", WORLDS, "for count in range(1, 9) if", "for count in (8,) if"),
    ("what stands behind a bad frame is read", WORLDS, "            return found, at + shown, BAD_FRAME\n", "            return found, None, BAD_FRAME\n"),
    ("what stands behind a bad line is read", WORLDS, "            return Script(doings, end, (BAD_LINE, [bad_line(number)]))\n", "            return Script(doings, None, (BAD_LINE, [bad_line(number)]))\n"),
    ("what stands behind a bad vector is read", WORLDS, "            return Script(doings, end, (BAD_LINE, numbered", "            return Script(doings, None, (BAD_LINE, numbered"),
    ("what stands behind an unlawful pair is read", WORLDS, "                return Script([], pair[1], (NOT_LAWFUL,", "                return Script([], None, (NOT_LAWFUL,"),
    ("a bad frame of a transcript shows a byte late", WORLDS, "        return Script([], bad.shown + 1,", "        return Script([], bad.shown + 2,"),
    ("an input that ends inside a frame has ended", WORLDS, "            return found, None, TRUNCATED\n", "            return found, None, 0\n"),
    ("a failed read of a transcript tells the pairs before it", WORLDS, "    return Script([], None, (0, numbered(b\"lawful \", pairs, b\"\\n\")) if at == len(stream) else (TRUNCATED, []))", "    return Script([], None, (0, numbered(b\"lawful \", pairs, b\"\\n\")) if at == len(stream) else (TRUNCATED, []), True, [numbered(b\"lawful \", pairs, b\"\\n\")])"),
    ("a last line without a line feed is done before the end", WORLDS, "        if end is None:\n            last = pieces\n        else:\n            doings.append((end, pieces))\n    return Script(doings, None, (0, last))", "        doings.append((end or len(stream), pieces))\n    return Script(doings, None, (0, last))"),
    ("a last line without a line feed isn't done", WORLDS, "    return Script(doings, None, (0, last))", "    return Script(doings, None, (0, []))"),
    ("a last vector without a line feed isn't reported", WORLDS, "last + closing[-1])", "closing[-1])"),
    ("the last line of vectors isn't written where a read fails", WORLDS, "does.closing[done] if does.closing else []\n", "[]\n"),
    ("the last line of vectors counts the line that is begun", WORLDS, "does.closing[done] if does.closing else []\n", "does.closing[min(done + 1, len(does.closing) - 1)] if does.closing else []\n"),
    ("the last line of vectors is that of all lines", WORLDS, "does.closing[done] if does.closing else []\n", "does.closing[-1] if does.closing else []\n"),
    # Writes.
    ("a failed write is a failed read", WORLDS, "        return WRITE_FAILED\n    return status", "        return READ_FAILED\n    return status"),
    ("a failed write is passed over", WORLDS, "        return WRITE_FAILED\n    return status", "        return does.ending[0]\n    return status"),
    ("a failed write is tried again", WORLDS, "            if good < times:\n                raise WriteFault\n", "            if good < times:\n                self.writes += 1\n                self.write([piece[good * self.takes :]])\n"),
    ("a failed write takes its bytes", WORLDS, "self.written + piece[: good * self.takes]", "self.written + piece[: (good + 1) * self.takes]"),
    ("a piece is written whole or not at all", WORLDS, "self.written + piece[: good * self.takes]", "self.written + piece * (good == times)"),
    ("a failed write behind a failed read is told as that", WORLDS, "        return WRITE_FAILED\n    return status", "        return READ_FAILED if outside.reads + 1 == outside.bad_read else WRITE_FAILED\n    return status"),
    ("reading goes on behind a failed write", WORLDS, "        return WRITE_FAILED\n    return status", "        outside.left = 0\n        return WRITE_FAILED\n    return status"),
    ("the last line of vectors is written behind a failed write", WORLDS, "        return WRITE_FAILED\n    return status", "        outside.bad_write = 0\n        outside.write(does.closing[done] if does.closing else [])\n        return WRITE_FAILED\n    return status"),
    ("header and payload are one piece", WORLDS, "    return [spelling[:cut], spelling[cut:]]", "    return [spelling]"),
    ("a header is written in two pieces", WORLDS, "    return [spelling[:cut], spelling[cut:]]", "    return [spelling[:8], spelling[8:cut], spelling[cut:]]"),
    ("a number and its word are one piece", WORLDS, "    return [first, b\"%d\" % number, behind]", "    return [first + b\"%d\" % number + behind]"),
    ("all replies are written at the end", WORLDS, "                outside.read_to(need)\n                outside.write(pieces)\n", "                outside.read_to(need)\n                late = [*late, *pieces] if done else pieces\n"),
    ("a bad line isn't told", WORLDS, "(BAD_LINE, [bad_line(number)])", "(BAD_LINE, [])"),
    # Files.
    ("a failed file is a faulty command line", WORLDS, "            return FILE_FAILED\n", "            return USAGE\n"),
    ("the noise is opened first", WORLDS, "    named = {\"image\": image, \"digest\": digest, **dict(zip(own, more)), \"noise\": source}", "    named = {\"noise\": source, \"image\": image, \"digest\": digest, **dict(zip(own, more))}"),
    ("the digest is loaded first", WORLDS, "    named = {\"image\": image, \"digest\": digest, **", "    named = {\"digest\": digest, \"image\": image, **"),
    ("the backup is loaded before its keys", WORLDS, "    named = {\"image\": image, \"digest\": digest, **dict(zip(own, more))", "    named = {\"image\": image, \"digest\": digest, **dict(list(zip(own, more))[::-1])"),
    ("the keys are loaded first", WORLDS, "    named = {\"image\": image, \"digest\": digest, **dict(zip(own, more)), \"noise\": source}", "    named = {**dict(zip(own, more)), \"image\": image, \"digest\": digest, \"noise\": source}"),
    ("a bad digest is a failed file", WORLDS, "is not None, BAD_DIGEST)", "is not None, FILE_FAILED)"),
    ("bad keys are a bad digest", WORLDS, "== KEYS, BAD_KEYS)", "== KEYS, BAD_DIGEST)"),
    ("a missing noise is no noise", WORLDS, "(files if role != \"noise\" else (\"noise\",))", "(files if role != \"noise\" else (name,))"),
    ("a backup's replies are heard", WORLDS, "    doings = [(end, []) for end, _ in heard.doings]", "    doings = heard.doings"),
    ("a backup is written where a read fails", WORLDS, "    return Script(doings, None, (0, [backup_of(machine.slots, keys)]))", "    made = backup_of(machine.slots, keys)\n    return Script(doings, None, (0, [made]), True, [[made]] * (len(doings) + 1))"),
    ("a backup is written in two pieces", WORLDS, "    return Script(doings, None, (0, [backup_of(machine.slots, keys)]))", "    made = backup_of(machine.slots, keys)\n    return Script(doings, None, (0, [made[:-32], made[-32:]]))"),
    ("a user backs up", WORLDS, "    if machine.state != State.OFFICER:\n        return Script(", "    if machine.state not in (State.OFFICER, State.USER):\n        return Script("),
    ("a module in Error backs up", WORLDS, "    if machine.state != State.OFFICER:\n        return Script(", "    if machine.state not in (State.OFFICER, State.ERROR):\n        return Script("),
    ("a module in Error restores", WORLDS, "    if machine.state != State.OFFICER:\n        return refused(", "    if machine.state not in (State.OFFICER, State.ERROR):\n        return refused("),
    ("a backup that is refused is answered over lines", WORLDS, "        return refused(BAD_BACKUP)", "        return operate(machine, stream)"),
    ("a restored run's first lines are those of its start", WORLDS, "    for each in TO_OFFICER:\n        machine.command(*command(each))\n    if machine.state != State.OFFICER:\n        return refused(NOT_OFFICER)\n", "    for each in TO_OFFICER[:5]:\n        machine.command(*command(each))\n    if machine.state != State.APPROVED:\n        return refused(NOT_OFFICER)\n"),
    ("a digest's image isn't loaded by a call", WORLDS, "(wrong.fault == FILE and wrong.turn == 1)", "False"),
    # Noise.
    ("noise that failed is noise that ended", MACHINE, "NOISE_ENDED, NOISE_FAILED, REPEATED, OUT_OF_PROPORTION = 0x0200, 0x0300, 0x0400", "NOISE_ENDED, NOISE_FAILED, REPEATED, OUT_OF_PROPORTION = 0x0200, 0x0400, 0x0300"),
    ("the health tests are exchanged", MACHINE, "0x0400, 0x0500, 0x0600", "0x0400, 0x0600, 0x0500"),
    ("noise that failed fails from then on", WORLDS, "[FAILED_SAMPLE] * len(behind[:1]) + behind[1:]", "[FAILED_SAMPLE] * len(behind)"),
    ("a failed event is asked for again", WORLDS, "            self.fail(whole + 1, NOISE_FAILED)", "            self.fail(whole, NOISE_FAILED)"),
    ("all samples of a seed are taken where one fails", WORLDS, "            self.fail(whole + 1, NOISE_FAILED)", "            self.fail(count, NOISE_FAILED)"),
    ("an unhealthy sample is taken again", WORLDS, "            self.fail(bad[0] - before, bad[1])", "            self.fail(bad[0] - before - 1, bad[1])"),
    ("all samples are taken before they are judged", WORLDS, "            self.fail(bad[0] - before, bad[1])", "            self.fail(len(events), bad[1])"),
    ("a failed event is told before an unhealthy one", WORLDS, "        if bad:\n            self.fail(bad[0] - before, bad[1])\n        if whole < len(events):\n            self.fail(whole + 1, NOISE_FAILED)\n        if whole < count:\n", "        if whole < len(events):\n            self.fail(whole + 1, NOISE_FAILED)\n        if whole < count:\n            self.fail(whole, NOISE_ENDED)\n        if bad:\n            self.fail(bad[0] - before, bad[1])\n        if whole < count:\n"),
    ("noise that ended is full of zeros", WORLDS, "            self.fail(whole, NOISE_ENDED)\n        self.noise", "            events = events + [0] * (count - whole)\n        self.noise"),
    ("30 equal samples are too many", MACHINE, "REPETITION, WINDOW, PROPORTION = 31,", "REPETITION, WINDOW, PROPORTION = 30,"),
    ("31 equal samples are few enough", MACHINE, "REPETITION, WINDOW, PROPORTION = 31,", "REPETITION, WINDOW, PROPORTION = 32,"),
    ("324 in a window are too many", MACHINE, "= 31, 512, 325", "= 31, 512, 324"),
    ("325 in a window are few enough", MACHINE, "= 31, 512, 325", "= 31, 512, 326"),
    ("a window has 511 samples", MACHINE, "= 31, 512, 325", "= 31, 511, 325"),
    ("windows overlap", WORLDS, "    for start in range(0, len(samples), WINDOW):\n", "    for start in range(0, len(samples), WINDOW // 2):\n"),
    ("any byte may be too many in a window", WORLDS, "        if window.count(window[:1]) >= PROPORTION:\n", "        window = max(window, key=window.count).to_bytes(1, \"big\") + window[1:]\n        if window.count(window[:1]) >= PROPORTION:\n"),
    ("windows begin anew at each seed", WORLDS, "len(self.seen), self.seen + bytes(events[:whole])", "0, bytes(events[:whole])"),
    ("a Reset keeps the samples in mind", WORLDS, "        super().forget()\n        self.seen = b\"\"", "        super().forget()\n        self.seen = getattr(self, \"seen\", b\"\")"),
    ("the first unhealthy sample of a kind is told last", WORLDS, "    return min(found, default=None)", "    return max(found, default=None)"),
    ("a fault of the noise isn't an error", MACHINE, "            status, self.code, self.state, self.back, self.step = failure.status, failure.code, State.ERROR, 0, 0", "            status, self.code = failure.status, failure.code\n            if failure.status == Status.TEST_FAILED:\n                self.state, self.back, self.step = State.ERROR, 0, 0"),
    ("a Reset leaves the error code", MACHINE, "        self.state = State.INIT\n        self.forget()", "        code, self.state = self.code, State.INIT\n        self.forget()\n        self.code = code"),
    ("a failed reseed is answered", MACHINE, "            self.generator = self.engine.reseed(self.take(ENTROPY), request.additional, self.generator)\n", "            try:\n                self.generator = self.engine.reseed(self.take(ENTROPY), request.additional, self.generator)\n            except Failed:\n                pass\n"),
    # Engines.
    ("a lie comes a turn later", MACHINE, "        return self.after < 0", "        return self.after < -1"),
    ("an engine lies once", MACHINE, "        return self.after < 0", "        return self.after == -1"),
    ("a lie is one of the lowest bit", MACHINE, "out[0] ^ 1 << self.bit", "out[0] ^ 1"),
    ("a lie is one of the last byte", MACHINE, "bytes([out[0] ^ 1 << self.bit]) + out[1:]", "out[:-1] + bytes([out[-1] ^ 1 << self.bit])"),
    ("an open that lies gives zeros", MACHINE, "        return None if self.is_wrong(3) else", "        return bytes(len(text)) if self.is_wrong(3) else"),
    ("an unwrap that lies gives zeros", MACHINE, "        return None if self.is_wrong(5) else", "        return bytes(16) if self.is_wrong(5) else"),
    ("a generator's lie is about V", MACHINE, "        return generator._replace(k=self.answered(call, generator.k))", "        return generator._replace(v=self.answered(call, generator.v))"),
    ("a seal's lie is about the ciphertext", MACHINE, "        return ciphertext, self.answered(2, tag)", "        return self.answered(2, ciphertext), tag"),
    ("a forged tag alone is tried", MACHINE, "for tag in (TEST_TAG, turned)]", "for tag in (turned, turned)]"),
    ("a forged tag isn't tried", MACHINE, "for tag in (TEST_TAG, turned)]", "for tag in (TEST_TAG,)]"),
    ("a test that failed isn't made again", MACHINE, "            raise Failed(Status.TEST_FAILED, 0x0100 + number)\n", "            self.tested.add(number)\n            raise Failed(Status.TEST_FAILED, 0x0100 + number)\n"),
    ("a lie in a draw is noise that failed", MACHINE, "            raise Failed(Status.TEST_FAILED, 0x0100 + number)\n", "            raise Failed(Status.NOISE_FAULT if number == 14 else Status.TEST_FAILED, 0x0100 + number)\n"),
    ("a check value that is wrong is taken", MACHINE, "        refuse_where(self.engine.mac(1, entry.key, header_bytes(entry.header))[:CHECK] != request.check, Status.CHECK_FAILED)\n", "        self.engine.mac(1, entry.key, header_bytes(entry.header))\n"),
    ("a digest is made by another engine", WORLDS, "    mac = engine_of(wrong).mac(", "    mac = Engine().mac("),
    ("a lie fails a vector that expects a refusal", WORLDS, "    return first in (b\"open\", b\"unwrap\", b\"unwrappad\") and words[-1] == b\"fail\"", "    return False"),
    ("a generator's vector makes one call", WORLDS, "b\"drbg\": (7, 9),", "b\"drbg\": (9,),"),
    ("a vector that expects a refusal makes no call", WORLDS, "    if not any([engine.is_wrong(call) for call in MADE.get(first, ())]):", "    if words[-1] == b\"fail\" or not any([engine.is_wrong(call) for call in MADE.get(first, ())]):"),
]

# Asks a model with a mistake how the stored runs end: a few of each sweep first, and then all, until one ends otherwise.
TELLS = """
import sys, types
data = sys.argv[1]
class Inputs(dict):
    def __missing__(self, name):
        with open(f"{data}/data/{name}", "rb") as file:
            self[name] = file.read()
        return self[name]
inputs = Inputs()
sys.modules["hostile_inputs"] = types.SimpleNamespace(INPUTS=inputs, TWO_KEYS=inputs["keys"], BACKUP=inputs["backup"])
try:
    import hostile_runs
except Exception as fault:
    sys.exit(f"the models can't be read: {fault!r}")
sweeps = {}
with open(f"{data}/stdout") as file:
    for line in file:
        if line[0].isdigit():
            sweeps[described].append(line)
        else:
            described = line.rstrip()
            sweeps[described] = []
def same(described, line):
    fault, *parts = described.split(" ")
    numbers = [int(part) for part in parts[:6]]
    sweep = hostile_runs.Sweep(fault, *numbers, parts[6], tuple(parts[7:]))
    try:
        return hostile_runs.told(sweep, int(line.split()[0]))[0] == line
    except Exception:
        return False
def tell():
    for few in (5, 10**6):
        for described, lines in sorted(sweeps.items(), key=lambda each: len(each[1])):
            for line in lines[:: max(1, len(lines) // few)]:
                if not same(described, line):
                    return f"{described}: turn {line.split()[0]}"
print(tell() or "")
"""


def told(mistake):
    """The first run that tells a mistake; none where no run does."""
    _, file, right, wrong = mistake
    with tempfile.TemporaryDirectory() as folder:
        for name in COPIED:
            with open(os.path.join(HERE, name), encoding="utf-8") as source:
                text = source.read()
            if name == file:
                if text.count(right) != 1:
                    return f"BAD: its text stands {text.count(right)} times in {file}"
                text = text.replace(right, wrong)
            with open(os.path.join(folder, name), "w", encoding="utf-8") as copy:
                copy.write(text)
        words = [sys.executable, "-B", "-c", TELLS, os.path.abspath(os.path.join(stored_files.CRATES, "hostile_program"))]
        ran = subprocess.run(words, cwd=folder, stdout=subprocess.PIPE, text=True, env={**os.environ, "PYTHONPATH": folder})
        return ran.stdout.strip() if ran.returncode == 0 else "BAD: it ended early"


def main():
    untold = 0
    if told(("nothing", WORLDS, "USAGE,", "USAGE,")):
        print("BAD: a run tells the models from themselves")
        return 1
    for mistake in MISTAKES:
        by = told(mistake)
        untold += not by or by.startswith("BAD")
        print(f"{mistake[0]}: {by or 'TOLD BY NO RUN'}", flush=True)
    print(f"{len(MISTAKES) - untold} of {len(MISTAKES)} mistakes are told")
    return 1 if untold else 0


if __name__ == "__main__":
    sys.exit(main())

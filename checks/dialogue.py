#!/usr/bin/env python3
"""Writes the dialogues that dialogue_program has with the module, and the replies that the model of machine.py gives them.

    python3 checks/dialogue.py            writes crates/dialogue_program/args, stdout and data/
    python3 checks/dialogue.py --check    compares them with what it would write
    python3 checks/dialogue.py --list     says what each dialogue is about

Each dialogue is a file of data/, with commands for a module that is opened anew. A line of args has its name alone where it is had as
most are; else also how many bytes come at a time and the noise's file, and behind these, where a call of the engine is wrong, its number,
how many times it is right, and the bit that it turns. stdout has the replies to the first, that line and the exit status, and so on.
"""
import sys

import dialogue_faults
import dialogue_forms
import dialogue_keys
import dialogue_runs
import dialogue_services
import dialogue_worlds
import stored_files
from dialogue_bodies import DIGEST, IMAGE, NOISE, STEP

CRATE = "dialogue_program"
DIALOGUES = {
    **dialogue_forms.DIALOGUES,
    **dialogue_keys.DIALOGUES,
    **dialogue_runs.DIALOGUES,
    **dialogue_worlds.DIALOGUES,
    **dialogue_services.DIALOGUES,
    **dialogue_faults.DIALOGUES,
}


def noise_of(had):
    return "noise" if had.samples == len(NOISE) else f"noise_{had.samples}"


def descriptions(name, had):
    """The lines of args for a dialogue."""
    for step in had.steps:
        way = (step, noise_of(had), *had.fault)
        yield name if way == (STEP, "noise") else " ".join(map(str, (name, *way)))


def written():
    """The files of the program, by their names."""
    files = {"data/image": IMAGE, "data/digest": DIGEST.hex().encode() + b"\n", "data/noise": NOISE}
    lines, replies = "", b""
    for name, dialogue in DIALOGUES.items():
        had = dialogue()
        files[f"data/{name}"] = had.stream
        files[f"data/{noise_of(had)}"] = NOISE[: had.samples]
        for line in descriptions(name, had):
            lines += f"{line}\n"
            replies += had.replies + f"{line} {had.status}\n".encode()
    return {**files, "args": lines.encode(), "stdout": replies}


def main(words):
    if words == ["--list"]:
        for name, dialogue in DIALOGUES.items():
            print(f"{name:28} {(dialogue.__doc__ or '').splitlines()[0] if dialogue.__doc__ else ''}".rstrip())
        return 0
    dialogue_runs.compare_draws()
    return stored_files.main(words, CRATE, written(), "dialogue.py", f"{len(DIALOGUES)} dialogues")


if __name__ == "__main__":
    sys.exit(main(sys.argv[1:]))

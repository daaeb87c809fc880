#!/usr/bin/env python3
"""Writes the runs of line_program: operator lines, vector lines, sessions and words, and what the models of machine_lines.py,
machine_vectors.py, machine_sessions.py and machine_words.py answer to them.

    python3 checks/line_runs.py            writes crates/line_program/args, stdout and data/
    python3 checks/line_runs.py --check    compares them with what it would write
    python3 checks/line_runs.py --list     says what the runs of each file are about

A line of args has the name of a file of data/, and the words of the runs that have its inputs: one run for each, where a separator
parts them. stdout has what each run writes, and behind it the same line and the run's status.
"""
import sys

import line_dialogues
import line_faults
import line_vectors
import line_words
import stored_files
from line_parts import FILES, SEPARATOR, Run, Surprise
from machine_words import run

RUNS = {**line_dialogues.RUNS, **line_faults.RUNS, **line_vectors.RUNS}
# The input of the runs that are told apart by their words alone: none of them reads it.
UNREAD = "unread"


def described():
    """The runs, each with the line of args that describes it."""
    for name, of in RUNS.items():
        made = of()
        yield " ".join((name, *made.words)), made
    for words, status in line_words.runs():
        yield " ".join((UNREAD, *words)), Run(words, [b"status\n"], [status])


def answered(description, made):
    """What the runs of a line write, each with its end."""
    written = b""
    for stream, wanted in zip(made.inputs, made.statuses):
        status, replies = run(made.words, FILES, stream)
        if status != wanted:
            raise Surprise(f"{description}: {status} in place of {wanted}")
        written += replies + f"{description} {status}\n".encode()
    return written


def written():
    """The files of the program, by their names, and the number of its runs."""
    files = {f"data/{name}": content for name, content in FILES.items()}
    descriptions, stdout, count = "", b"", 0
    for description, made in described():
        if any(SEPARATOR in stream for stream in made.inputs):
            raise Surprise(f"{description}: a separator")
        files[f"data/{description.split(' ')[0]}"] = SEPARATOR.join(made.inputs)
        descriptions += f"{description}\n"
        stdout += answered(description, made)
        count += len(made.inputs)
    return {**files, "args": descriptions.encode(), "stdout": stdout}, count


def main(words):
    if words == ["--list"]:
        for name, of in RUNS.items():
            print(f"{name:28} {(of.__doc__ or '').splitlines()[0] if of.__doc__ else ''}".rstrip())
        print(f"{UNREAD:28} Sessions, and words that are refused: no run reads it.")
        return 0
    files, count = written()
    return stored_files.main(words, "line_program", files, "line_runs.py", f"{count} runs")


if __name__ == "__main__":
    sys.exit(main(sys.argv[1:]))

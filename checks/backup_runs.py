#!/usr/bin/env python3
"""Writes the runs of backup_program: lines whose slots are backed up, backups that are restored or refused, and what the models of
machine_backups.py and machine_words.py answer to them.

    python3 checks/backup_runs.py            writes crates/backup_program/args, stdout and data/
    python3 checks/backup_runs.py --check    compares them with what it would write
    python3 checks/backup_runs.py --list     says what the runs are about

A line of args has the name of a file of data/ with inputs, as those of line_program, and the words of the runs that have them. The third word
of runs that restore names a file of backups, each behind its length in two bytes. There is a run for each input and each backup, those with
the first input first. stdout has what each writes, and behind it the same line and the run's status.
"""
import sys

import stored_files
from backup_dialogues import DIALOGUES
from backup_forms import FORMS
from backup_parts import FILES, Run
from line_parts import SEPARATOR, Surprise
from machine_words import run


def runs():
    """The runs, and how many each function makes."""
    for of in DIALOGUES + FORMS:
        made = of()
        yield of, [made] if isinstance(made, Run) else list(made)


def each_run():
    for _, made in runs():
        yield from made


def with_files(made):
    """The words, the files and the input of each run."""
    for stream in made.inputs:
        for backup in made.backups:
            yield made.words, FILES if backup is None else {**FILES, made.words[2]: backup}, stream


def answered(made):
    """What runs write, each with its end."""
    description, written = " ".join((made.lines, *made.words)), b""
    for (words, files, stream), wanted in zip(with_files(made), made.statuses, strict=True):
        status, replies = run(words, files, stream)
        if status != wanted:
            raise Surprise(f"{description}: {status} in place of {wanted}")
        written += replies + f"{description} {status}\n".encode()
    return written


def stored_backups(backups):
    return b"".join(len(backup).to_bytes(2, "big") + backup for backup in backups)


def written():
    """The files of the program, by their names, and the number of its runs."""
    files, descriptions, stdout, count = {f"data/{name}": content for name, content in FILES.items()}, "", b"", 0
    for made in each_run():
        named = {f"data/{made.lines}": SEPARATOR.join(made.inputs)}
        if made.backups != [None]:
            named[f"data/{made.words[2]}"] = stored_backups(made.backups)
        if any(SEPARATOR in stream for stream in made.inputs) or any(files.get(name, content) != content for name, content in named.items()):
            raise Surprise(f"{made.lines}: a separator, or a file of two contents")
        files |= named
        descriptions += " ".join((made.lines, *made.words)) + "\n"
        stdout += answered(made)
        count += len(made.statuses)
    return {**files, "args": descriptions.encode(), "stdout": stdout}, count


def main(words):
    if words == ["--list"]:
        for of, made in runs():
            print(f"{sum(len(each.statuses) for each in made):5} {of.__name__:24} {of.__doc__}")
        return 0
    files, count = written()
    return stored_files.main(words, "backup_program", files, "backup_runs.py", f"{count} runs")


if __name__ == "__main__":
    sys.exit(main(sys.argv[1:]))

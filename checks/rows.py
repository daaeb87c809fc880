#!/usr/bin/env python3
"""Computes every table of expected values anew, and compares it with the rows that the tests have.

Each script that ends in `_rows.py` or `_tables.py` names in its head the file that it writes, as
crates/NAME/src/FILE.rt. What it prints is either that whole file, which then begins with `//!`, or some of its tables:
the rows of each, or its constants, under a line that begins with `#`; a line of hex alone is an array of bytes, or a
string. Numbers and strings are compared, and not how they are laid out. A script that names no file fails, since nobody
would know what its rows are for.
"""
import glob
import importlib.util
import os
import re
import subprocess
import sys

TOKEN = re.compile(r'//[^\n]*|"(?:[^"\\]|\\.)*"|[A-Za-z_]\w*|\d\w*|\S')
NUMBER = re.compile(r"(0x[0-9a-f_]+|[0-9][0-9_]*)(?:[ui](?:8|16|32|64|128|size))?")
FILE = re.compile(r"crates/\w+/src/[\w/]+\.rt")


def tokens(text):
    """The words of Rattle, without comments, visibility and trailing commas; numbers by their value."""
    kept = []
    for token in TOKEN.findall(text):
        number = NUMBER.fullmatch(token.lower())
        if token.startswith("//"):
            continue
        if token in ")]}" and kept and kept[-1] == ",":
            kept.pop()
        if number:
            digits = number.group(1).replace("_", "")
            token = str(int(digits, 16 if digits.startswith("0x") else 10))
        kept.append(token)
    return kept


def stands_in(part, whole):
    return any(whole[at : at + len(part)] == part for at in range(len(whole) - len(part) + 1))


def is_hex(line):
    return re.fullmatch(r"(?:[0-9a-f]{2}){8,}", line) is not None


def array_stands(line, file):
    return f'"{line}"' in file or stands_in(tokens(str(list(bytes.fromhex(line)))), file)


def missing_tables(printed, file):
    """What was printed and does not stand in the file: rows have to be all that their brackets hold."""
    lines = printed.splitlines(keepends=True)
    missing = [line.strip() for line in lines if is_hex(line.strip()) and not array_stands(line.strip(), file)]
    printed = "".join("#\n" if is_hex(line.strip()) else line for line in lines)
    for table in re.split(r"^#.*\n", printed, flags=re.MULTILINE):
        part = tokens(table)
        if part and part[0] == "(":
            part = ["["] + (part[:-1] if part[-1] == "," else part) + ["]"]
        if part and not stands_in(part, file):
            missing.append(table.strip().splitlines()[0])
    return missing


def compare(script):
    """Whether the script's rows stand in the tests, with what is to be said."""
    with open(script, encoding="utf-8") as source:
        text = source.read()
    named = FILE.search(text)
    if not named:
        return False, "it names no file of tests"
    if "cryptography" in text and not importlib.util.find_spec("cryptography"):
        return True, "skipped, since Python has no `cryptography` here"
    ran = subprocess.run([sys.executable, "-B", script], stdout=subprocess.PIPE, stderr=subprocess.PIPE, text=True)
    if ran.returncode != 0 or not ran.stdout:
        return False, f"it ended with status {ran.returncode}: {ran.stderr.strip().splitlines()[-1:]}"
    with open(named.group(), encoding="utf-8") as tests:
        file = tokens(tests.read())
    if ran.stdout.startswith("//!"):
        same = tokens(ran.stdout) == file
        return same, f"{named.group()} {'is' if same else 'is NOT'} what it writes"
    missing = missing_tables(ran.stdout, file)
    if missing:
        return False, f"{named.group()} has no table of these rows: {missing[0]} .."
    return True, f"its tables stand in {named.group()}"


def main():
    os.chdir(os.path.join(os.path.dirname(os.path.abspath(__file__)), ".."))
    passed = True
    for script in sorted(glob.glob("checks/*_rows.py") + glob.glob("checks/*_tables.py")):
        same, said = compare(script)
        passed = passed and same
        print(f"rows: {'' if same else 'FAILED: '}{script}: {said}")
    return 0 if passed else 1


if __name__ == "__main__":
    sys.exit(main())

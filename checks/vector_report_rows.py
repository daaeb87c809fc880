#!/usr/bin/env python3
"""Writes the rows of vector_reports' tests: lines, how their report ends, and the report, by machine_vectors.py; the vectors of all kinds
come from vector_rows.py.

    python3 checks/vector_report_rows.py > crates/vector_reports/src/tests/rows.rt
    (cd crates/vector_reports && rt fmt)
"""
import sys

sys.dont_write_bytecode = True

from machine_vectors import ALL_PASSED, BAD_LINE, SOME_FAILED, report
from vector_rows import line, vectors

PASS = "sha256 616263 ba7816bf8f01cfea414140de5dae2223b00361a396177a9cb410ff61f20015ad"
FAIL = "sha256 616263 00"
BAD = "sha256 616263"
# How many bytes a read takes where one fails.
STEP = 20


def texts():
    rows = [
        f"{PASS}\n{FAIL}\n",
        "",
        "\n",
        "#",
        f"# a note\n\n{FAIL}\n\n\n#\n{PASS}\n# no line follows\n",
        # the last line has no LF
        PASS,
        FAIL,
        BAD,
        f"{PASS}\n{FAIL}",
        f"{PASS}\n# {BAD}",
        f"{PASS}\n \n",
        "\r\n",
        # line numbers of two digits
        "\n" * 8 + f"{PASS}\n{PASS}\n{FAIL}\n",
        "#\n" * 99 + f"{PASS}\n{BAD}\n{PASS}\n",
    ]
    good = ["# a note", PASS, "", FAIL, PASS]
    for place in range(len(good) + 1):
        rows.append("\n".join(good[:place] + [BAD] + good[place:]) + "\n")
        rows.append("\n".join(good[:place] + [BAD]))
    every = {before[0]: line(*before, out, *behind) for before, out, behind, _ in vectors()}
    other = {before[0]: line(*before, wrong, *behind) for before, _, behind, wrong in vectors()}
    rows.append("\n".join(every.values()) + "\n")
    rows.append("\n".join(other.values()) + "\n")
    return rows


def quoted(text):
    return '"' + text.replace("\n", "\\n").replace("\r", "\\r") + '"'


def answer(status, text):
    if status == BAD_LINE:
        return f"Reported::BadLine({text.split()[-1].decode()})"
    return {ALL_PASSED: "Reported::AllPassed", SOME_FAILED: "Reported::SomeFailed"}[status]


def table(doc, name, shape, rows):
    print(f"/// {doc}\nstatic {name}: [{shape}; {len(rows)}] = [")
    for row in rows:
        print(f"    {row},")
    print(f"];\n\npub(super) fn {name.lower()}() -> &'static [{shape}] {{\n    &{name}\n}}\n")


def main():
    print("//! Written by `checks/vector_report_rows.py`.\nuse crate::Reported;\n")
    rows = []
    for text in texts():
        status, written = report(text.encode())
        rows.append(f"({quoted(text)}, {answer(status, written)}, {quoted(written.decode())})")
    table("Lines, how their report ends, and the report.", "WHOLE", "(&'static str, Reported, &'static str)", rows)
    text = f"{PASS}\n#\n{FAIL}\n{PASS}"
    cut = []
    for taken in range(0, len(text) + STEP, STEP):
        status, written = report(text[:taken].encode(), ended=False)
        assert status != BAD_LINE
        cut.append(quoted(written.decode()))
    print(f"/// The lines of which a read fails.\npub(super) const CUT_LINES: &str = {quoted(text)};\n")
    table(f"Their reports where the first read fails, the second, and so on; each read takes {STEP} bytes.", "CUT", "&'static str", cut)


if __name__ == "__main__":
    main()

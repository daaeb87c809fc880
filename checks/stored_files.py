"""The files of a program of which `rt ci` makes a run: what a script computes is written there, or compared with what stands there."""
import os

CRATES = os.path.join(os.path.dirname(os.path.abspath(__file__)), "..", "crates")


def content(path):
    try:
        with open(path, "rb") as file:
            return file.read()
    except FileNotFoundError:
        return None


def stored(crate):
    """The names of the files that stand there."""
    data = os.path.join(CRATES, crate, "data")
    return {"args", "stdout"} | {f"data/{name}" for name in (os.listdir(data) if os.path.isdir(data) else ())}


def compare(crate, files, script, described):
    """Says whether the files of a crate are these, and answers the exit status."""
    others = [name for name in sorted(stored(crate) | set(files)) if content(os.path.join(CRATES, crate, name)) != files.get(name)]
    for name in others:
        print(f"rows: FAILED: crates/{crate}/{name} is NOT what checks/{script} writes")
    if not others:
        print(f"rows: checks/{script}: the {described} of {crate} are what it writes")
    return 1 if others else 0


def write(crate, files):
    """Writes these files, and removes all others of the run."""
    os.makedirs(os.path.join(CRATES, crate, "data"), exist_ok=True)
    for name in stored(crate) - set(files):
        os.remove(os.path.join(CRATES, crate, name))
    for name, wanted in files.items():
        with open(os.path.join(CRATES, crate, name), "wb") as file:
            file.write(wanted)


def main(words, crate, files, script, described):
    """Compares where the words ask for it, and else writes."""
    if words == ["--check"]:
        return compare(crate, files, script, described)
    write(crate, files)
    return 0

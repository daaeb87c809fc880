"""Plants mistakes in the models of the program's words, and asks whether some run tells each: see line_strength.py and backup_strength.py."""
import os
import pickle
import subprocess
import sys
import tempfile

HERE = os.path.dirname(os.path.abspath(__file__))
LINES, SESSIONS, VECTORS, WORDS = "machine_lines.py", "machine_sessions.py", "machine_vectors.py", "machine_words.py"
BACKUPS = "machine_backups.py"
MODELS = (LINES, SESSIONS, VECTORS, WORDS, BACKUPS, "machine.py", "machine_bodies.py", "machine_functions.py", "machine_rules.py", "transcripts.py")

# Asks models with a mistake what they answer to each run, until one answer is another.
TELLS = """
import pickle, sys
with open("runs", "rb") as file:
    files, runs = pickle.load(file)
try:
    import machine_words
except Exception as fault:
    sys.exit(f"the models can't be read: {fault!r}")
for name, words, more_files, stream, wanted in runs:
    try:
        same = machine_words.run(words, {**files, **more_files}, stream) == wanted
    except Exception:
        same = False
    if not same:
        print(name)
        break
"""


def told(mistake, runs):
    """The first run that tells a mistake; none where no run does."""
    _, file, right, wrong = mistake
    with tempfile.TemporaryDirectory() as folder:
        for name in MODELS:
            with open(os.path.join(HERE, name), encoding="utf-8") as source:
                text = source.read()
            if name == file:
                if text.count(right) != 1:
                    return f"BAD: its text stands {text.count(right)} times in {file}"
                text = text.replace(right, wrong)
            with open(os.path.join(folder, name), "w", encoding="utf-8") as copy:
                copy.write(text)
        with open(os.path.join(folder, "runs"), "wb") as copy:
            copy.write(runs)
        words = [sys.executable, "-B", "-c", TELLS]
        ran = subprocess.run(words, cwd=folder, stdout=subprocess.PIPE, text=True, env={**os.environ, "PYTHONPATH": folder})
        return ran.stdout.strip() if ran.returncode == 0 else "BAD: it ended early"


def try_all(mistakes, files, runs):
    """Tries each mistake: its name, the file of the model, and the text that another takes the place of. A run has a name, its words, files of its
    own beside those of all, its input, and what the models answer.
    """
    kept, untold = pickle.dumps((files, runs)), 0
    for mistake in mistakes:
        by = told(mistake, kept)
        untold += not by or by.startswith("BAD")
        print(f"{mistake[0]}: {by or 'TOLD BY NO RUN'}", flush=True)
    print(f"{len(mistakes) - untold} of {len(mistakes)} mistakes are told")
    return 1 if untold else 0

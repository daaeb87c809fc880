#!/usr/bin/env bash
# Whether each table of expected values in the tests, the stored run of the program, the stored dialogues, the stored runs of lines and of
# backups, the stored checks of transcripts and the stored runs over a hostile outside are what their scripts compute: see rows.py,
# stored_run.py, dialogue.py, line_runs.py, backup_runs.py, transcript_runs.py and hostile_runs.py.
set -u
cd "$(dirname "$0")/.." || exit 1
if ! command -v python3 >/dev/null; then
    echo 'rows: skipped, since there is no python3'
    exit 0
fi
python3 checks/stored_run.py --check || exit 1
if python3 -c 'import cryptography' 2>/dev/null; then
    python3 checks/manual_dialogue.py --check || exit 1
    python3 checks/manual_lines.py --check || exit 1
    python3 checks/dialogue.py --check || exit 1
    python3 checks/line_runs.py --check || exit 1
    python3 checks/backup_runs.py --check || exit 1
    python3 checks/transcript_runs.py --check || exit 1
    python3 checks/hostile_runs.py --check || exit 1
else
    echo "rows: manual_dialogue.py, manual_lines.py, dialogue.py, line_runs.py, backup_runs.py, transcript_runs.py and hostile_runs.py are skipped, since Python's cryptography isn't here"
fi
exec python3 checks/rows.py

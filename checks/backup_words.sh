#!/usr/bin/env bash
# The words `backup` and `restore` of the built program, and tools/read_backup.py, which reads what they write: see backup_words.py.
# `./warlinden` takes the program that `rt ci` left, or builds it.
set -u
cd "$(dirname "$0")/.." || exit 1
if ! python3 -c 'import sys; sys.exit(sys.version_info < (3, 8))' 2>/dev/null; then
    echo 'backup_words: skipped, since there is no python3'
    exit 0
fi
if ! python3 -c 'import cryptography' 2>/dev/null; then
    echo "backup_words: skipped, since Python's cryptography isn't here"
    exit 0
fi
./warlinden digest checks/backup_words.sh >/dev/null || {
    echo "backup_words: FAILED: there is no program that writes the digest of a file with status 0, but $?"
    exit 1
}
exec python3 -B checks/backup_words.py crates/module_program/out/module_program ./warlinden

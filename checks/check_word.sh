#!/usr/bin/env bash
# The word `check` of the built program, and examples/record.py, which records what is checked: see check_word.py. `./warlinden` takes
# the program that `rt ci` left, or builds it.
set -u
cd "$(dirname "$0")/.." || exit 1
if ! command -v python3 >/dev/null; then
    echo 'check_word: skipped, since there is no python3'
    exit 0
fi
./warlinden check </dev/null >/dev/null || {
    echo "check_word: FAILED: there is no program that says of no transcript that it is lawful, with status 0, but $?"
    exit 1
}
exec python3 -B checks/check_word.py crates/module_program/out/module_program ./warlinden

#!/usr/bin/env bash
# Input that was changed at random, given to the built program: see fuzz.py. By hand any number of them:
# `bash checks/fuzz.sh FIRST COUNT`.
set -u
cd "$(dirname "$0")/.." || exit 1
if ! command -v python3 >/dev/null; then
    echo 'fuzz: skipped, since there is no python3'
    exit 0
fi
program=crates/module_program/out/module_program
if [ ! -x "$program" ]; then
    echo "fuzz: skipped, since the program isn't built"
    exit 0
fi
./warlinden digest checks/fuzz.sh >/dev/null || {
    echo "fuzz: FAILED: there is no program that writes the digest of a file with status 0, but $?"
    exit 1
}
exec python3 -B checks/fuzz.py "$program" "${1:-1}" "${2:-1000}"

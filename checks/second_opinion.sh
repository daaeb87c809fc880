#!/usr/bin/env bash
# Random streams, answered by the built program and by a model in Python that shares nothing with it: see second_opinion.py. By hand
# any number of them: `bash checks/second_opinion.sh FIRST COUNT`.
set -u
cd "$(dirname "$0")/.." || exit 1
if ! python3 -c 'import cryptography' 2>/dev/null; then
    echo "second_opinion: skipped, since there is no python3 with cryptography"
    exit 0
fi
program=crates/module_program/out/module_program
if [ ! -x "$program" ]; then
    echo "second_opinion: skipped, since the program isn't built"
    exit 0
fi
./warlinden digest checks/second_opinion.sh >/dev/null || {
    echo "second_opinion: FAILED: there is no program that writes the digest of a file with status 0, but $?"
    exit 1
}
exec python3 -B checks/second_opinion.py "$program" "${1:-1}" "${2:-200}"

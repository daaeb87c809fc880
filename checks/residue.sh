#!/usr/bin/env bash
# No byte of a key that was zeroised stays in the memory of the running program, which no proof speaks of: see residue.py.
# `./warlinden` takes the program that `rt ci` left, or builds it.
set -u
cd "$(dirname "$0")/.." || exit 1
if ! python3 -c 'import sys; sys.exit(sys.version_info < (3, 8))' 2>/dev/null; then
    echo 'residue: skipped, since there is no python3'
    exit 0
fi
if [ ! -e /proc/self/mem ] || [ ! -e /proc/self/syscall ] || [ "$(uname -m)" != x86_64 ]; then
    echo 'residue: skipped, since this machine does not show the memory and the stack pointer of a process'
    exit 0
fi
python3 -B checks/residue_traces.py || exit 1
./warlinden digest checks/residue.sh >/dev/null || {
    echo "residue: FAILED: there is no program that writes the digest of a file with status 0, but $?"
    exit 1
}
exec python3 -B checks/residue.py crates/module_program/out/module_program

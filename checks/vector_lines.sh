#!/usr/bin/env bash
# That tools/vector_lines.py turns files of published vectors into the right lines, and that the built program passes them: see
# vector_lines.py. The files are made there, in the forms of the published ones. Where no program stands, that part is skipped.
set -u
cd "$(dirname "$0")/.." || exit 1
if ! python3 -c 'import cryptography' 2>/dev/null; then
    echo "vector_lines: skipped, since there is no python3 with cryptography"
    exit 0
fi
if [ ! -x crates/module_program/out/module_program ]; then
    exec python3 -B checks/vector_lines.py
fi
./warlinden vectors </dev/null >/dev/null || {
    echo "vector_lines: FAILED: there is no program that tries no vector with status 0, but $?"
    exit 1
}
exec python3 -B checks/vector_lines.py ./warlinden

#!/usr/bin/env bash
# Refuses each allocation of the built program in turn: see allocations.py. What refuses them stands before the C library's allocator, and is
# compiled here.
set -u
cd "$(dirname "$0")/.." || exit 1
for needed in python3 cc; do
    if ! command -v "$needed" >/dev/null; then
        echo "allocations: skipped, since there is no $needed"
        exit 0
    fi
done
program=crates/module_program/out/module_program
if [ ! -x "$program" ]; then
    echo "allocations: skipped, since the program isn't built"
    exit 0
fi
./warlinden digest checks/allocations.sh >/dev/null || {
    echo "allocations: FAILED: there is no program that writes the digest of a file with status 0, but $?"
    exit 1
}
room=$(mktemp -d) || exit 1
trap 'rm -rf "$room"' EXIT
cc -O1 -shared -fPIC -o "$room/refusing_malloc.so" checks/refusing_malloc.c || {
    echo 'allocations: FAILED: what refuses allocations does not compile'
    exit 1
}
python3 -B checks/allocations.py "$program" "$room/refusing_malloc.so"

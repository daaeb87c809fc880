#!/usr/bin/env bash
# Clients that talk to the built program over real pipes, which no proof speaks of: see client.py, and client_keys.py for the
# services that seal, wrap, derive, draw and zeroise trees.
# `./warlinden` takes the program that `rt ci` left, or builds it.
set -u
cd "$(dirname "$0")/.." || exit 1
if ! command -v python3 >/dev/null; then
    echo 'client: skipped, since there is no python3'
    exit 0
fi
./warlinden digest checks/client.sh >/dev/null || {
    echo "client: FAILED: there is no program that writes the digest of a file with status 0, but $?"
    exit 1
}
program=crates/module_program/out/module_program
python3 -B checks/client.py "$program" ./warlinden || exit 1
if ! python3 -c 'import cryptography' 2>/dev/null; then
    echo 'client: the services with keys are skipped, since Python has no cryptography here'
    exit 0
fi
python3 -B checks/client_keys.py "$program"

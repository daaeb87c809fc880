#!/usr/bin/env bash
# A person at a terminal, and the built program's `operate`: see typed_session.py. `./warlinden` takes the program that `rt ci` left,
# or builds it.
set -u
cd "$(dirname "$0")/.." || exit 1
if ! python3 -c 'import pty' 2>/dev/null; then
    echo 'typed_session: skipped, since there is no python3 with pseudo-terminals'
    exit 0
fi
./warlinden digest checks/typed_session.sh >/dev/null || {
    echo "typed_session: FAILED: there is no program that writes the digest of a file with status 0, but $?"
    exit 1
}
exec python3 -B checks/typed_session.py crates/module_program/out/module_program ./warlinden

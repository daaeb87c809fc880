#!/usr/bin/env bash
# Whether a run can take memory once it has begun its work, by the sources: see no_memory.py.
set -u
cd "$(dirname "$0")/.." || exit 1
if ! command -v python3 >/dev/null; then
    echo 'no_memory: skipped, since there is no python3'
    exit 0
fi
exec python3 -B checks/no_memory.py

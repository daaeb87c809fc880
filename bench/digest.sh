#!/usr/bin/env bash
# The proved `serve` on Hash commands (SHA-256) over texts of 64 KiB, a thousand or as many as the first word says, beside
# Python's hashlib over the same texts.
. "$(dirname "$0")/served.sh"
count=${1:-1000}
cat >commands.py <<'END'
import sys

body = b"\x01" + bytes(65_536)
begin = ["c50101000000000400000000", "c501030000000000"] + ["c501020000000000"] * 3 + ["c50106000000000102"]
sys.stdout.buffer.write(bytes.fromhex("".join(begin)))
for _ in range(int(sys.argv[1])):
    sys.stdout.buffer.write(bytes.fromhex("c5011000") + len(body).to_bytes(4, "big") + body)
END
cat >peer.py <<'END'
import hashlib
import sys

commands = sys.stdin.buffer
commands.read(53)
while commands.read(9):
    sys.stdout.buffer.write(hashlib.sha256(commands.read(65_536)).digest())
END
python3 commands.py $((count / 10)) >few
python3 commands.py $((count + count / 10)) >many

ours=$(served replies "${serve[@]}")
peer=$(served digests python3 peer.py)
cmp -s <(tail -c 32 replies) <(tail -c 32 digests) || fail 'the last digests differ'
what_runs_here
bytes=$((65536 * count))
beside 'Hash, SHA-256 of 64 KiB' "$(speed_of "$bytes" "${ours}000000")" MB/s "Python's hashlib" "$(speed_of "$bytes" "${peer}000000")"

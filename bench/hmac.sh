#!/usr/bin/env bash
# HMAC-SHA-256 over 64 KiB, a request for 65,536 random bytes and a derivation of 32 bytes on the proved build, beside
# Python's hmac over OpenSSL. HMAC, and the HMACs of 32 bytes under one key of which a request has 2,048, also beside
# `openssl speed`.
. "$(dirname "$0")/seconds.sh"
program=$(proved hmac_bench -- hmac 1)
cat >"$room/peer.py" <<'END'
import hmac
import sys


def mac(key, text):
    return hmac.digest(key, text, "sha256")


def macs(count):
    key, text = bytes(64), bytes(65536)
    for _ in range(count):
        key = mac(key, text)


def requests(count):
    k, v = bytes(32), bytes([1] * 32)
    for _ in range(count):
        output = []
        for _ in range(2048):
            v = mac(k, v)
            output.append(v)
        b"".join(output)
        k = mac(k, v + b"\0")
        v = mac(k, v)


def derivations(count):
    key = bytes(32)
    for _ in range(count):
        key = mac(key, b"\0\0\0\1label\0context\0\0\1\0")


{"hmac": macs, "generate": requests, "derive": derivations}[sys.argv[1]](int(sys.argv[2]))
END

# line NAME WORK BYTES COUNT PEER'S COUNT [PEER'S NAME AND FIGURE..]
line() {
    local name=$1 work=$2 bytes=$3 count=$4 peer_count=$5 ours peer
    shift 5
    ours=$(turn "$count" "$program" "$work")
    peer=$(turn "$peer_count" python3 "$room/peer.py" "$work")
    beside "$name" "$(speed_of "$bytes" "$ours")" MB/s "Python's hmac" "$(speed_of "$bytes" "$peer")" "$@"
}

what_runs_here
line 'HMAC-SHA-256 of 64 KiB' hmac 65536 400 1000 'openssl speed -hmac' "$(openssl_rate "$on" 65536 -hmac sha256)"
line 'request of 65,536 bytes' generate 65536 100 20 'openssl speed -hmac, 32 bytes' "$(openssl_rate "$on" 32 -hmac sha256)"
line 'derivation of 32 bytes' derive 32 100000 20000

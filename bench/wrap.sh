#!/usr/bin/env bash
# A wrap of 32 bytes with AES-256 (KW) on the proved build, the key set up once, beside OpenSSL's with its AES instructions
# off and on.
. "$(dirname "$0")/seconds.sh"
program=$(proved wrap_bench -- 1)

# of_a_wrap MASK: the nanoseconds of a wrap in OpenSSL
of_a_wrap() {
    awk -v rate="$(openssl_rate "$1" 32 -evp aes-256-wrap)" 'BEGIN { printf "%.1f", 32000 / rate }'
}

what_runs_here
beside 'a wrap of 32 bytes, AES-256' "$(turn 60000 "$program")" ns \
    'OpenSSL, instructions off' "$(of_a_wrap "$off")" \
    'OpenSSL, instructions on' "$(of_a_wrap "$on")"

#!/usr/bin/env bash
# AES on the proved build, beside OpenSSL with its AES instructions off and on and, for AES-256, BearSSL's constant-time
# ct64, in one run on this machine: counter mode for each length of key, and one block and a key's set-up in nanoseconds.
# Words for the build, such as '--backend rattle', may follow.
. "$(dirname "$0")/seconds.sh"
program=$(proved aes_bench "$@" -- stream 16 1)

# stream NAME WORK KEYBYTES BYTES COUNT: counter mode
stream() {
    local ours constant=-
    [ "$3" != 32 ] || constant=$(bearssl_rate ctr "$4" $((6000000 / $4)))
    ours=$(speed_of "$4" "$(turn "$5" "$program" "$2" "$3")")
    beside "$1" "$ours" MB/s \
        'OpenSSL, instructions off' "$(openssl_rate "$off" "$4" -evp "aes-$((8 * $3))-ctr")" \
        'OpenSSL, instructions on' "$(openssl_rate "$on" "$4" -evp "aes-$((8 * $3))-ctr")" \
        "BearSSL's ct64" "$constant"
}

# of_a_block MASK [WORDS]: the nanoseconds of a block in OpenSSL
of_a_block() {
    awk -v rate="$(openssl_rate "$1" 16 ${2-} -evp aes-256-ecb)" 'BEGIN { printf "%.1f", 16000 / rate }'
}

# block NAME WORK [WORDS]: one block, as a time
block() {
    beside "$1" "$(turn 800000 "$program" "$2" 32)" ns \
        'OpenSSL, instructions off' "$(of_a_block "$off" "${3-}")" \
        'OpenSSL, instructions on' "$(of_a_block "$on" "${3-}")"
}

what_runs_here
bearssl
for bytes in 16 24 32; do
    stream "AES-$((8 * bytes)), 64 KiB" stream $bytes 65536 200
done
stream 'AES-256, 1 KiB' kibibyte 32 1024 16000
stream 'AES-256, gctr_lanes' lanes 32 65536 20
block 'AES-256, one block' encrypt
block 'AES-256, one block back' decrypt -decrypt
for bytes in 16 24 32; do
    # (no peer tells the time of a set-up; one block is taken off, which each turn enciphers)
    awk -v name="AES-$((8 * bytes)), a key's set-up" -v both="$(turn 200000 "$program" rekey $bytes)" \
        -v block="$(turn 200000 "$program" encrypt $bytes)" 'BEGIN { printf "%-30s %10.1f ns\n", name, both - block }'
done

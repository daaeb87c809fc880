#!/usr/bin/env bash
# GHASH in MB/s on the proved build, each way of it, and as Rattle's own compiler builds it, beside OpenSSL and BearSSL's
# constant-time ctmul64 in one run. OpenSSL tells no speed of GHASH alone. Where its instructions are off, AES-256-GCM
# is counter mode and then GHASH, so the time of GHASH is the difference of the two times; with them on both are made at
# once, and all of GCM is shown.
. "$(dirname "$0")/seconds.sh"
second_build=$(proved ghash_bench --backend rattle -- shuffles 16 1)
first_build=$(proved ghash_bench -- shuffles 16 1)

what_runs_here
bearssl
printf '%-7s%10s%10s%10s%10s%15s%14s%8s%13s%10s%8s\n' bytes absorb lanes table plain 'second build' 'OpenSSL, off' ratio \
    'GCM, on' BearSSL ratio
for size in 16 256 1024 65536; do
    absorb=$(rate $size $((96000000 / size)) "$first_build" shuffles)
    lanes=$(rate $size $((16000000 / size)) "$first_build" lanes)
    table=$(rate $size $((16000000 / size)) "$first_build" table)
    plain=$(rate $size $((4000000 / size)) "$first_build" plain)
    second=$(rate $size $((48000000 / size)) "$second_build" shuffles)
    gcm=$(openssl_rate "$off" $size -evp aes-256-gcm)
    counter=$(openssl_rate "$off" $size -evp aes-256-ctr)
    peer=$(awk -v a="$gcm" -v b="$counter" 'BEGIN { printf "%.1f", 1 / (1 / a - 1 / b) }')
    constant=$(bearssl_rate ghash $size $((16000000 / size)))
    printf '%-7d%10s%10s%10s%10s%15s%14s%8s%13s%10s%8s\n' $size "$absorb" "$lanes" "$table" "$plain" "$second" "$peer" \
        "$(ratio "$absorb" "$peer")" "$(openssl_rate "$on" $size -evp aes-256-gcm)" "$constant" "$(ratio "$absorb" "$constant")"
done
printf 'filling a table: %.0f nanoseconds\n' "$(turn 100000 "$first_build" fill 0)"

#!/usr/bin/env bash
# AES-256-GCM in MB/s on the proved build, and as Rattle's own compiler builds it, beside OpenSSL and BearSSL's
# constant-time code (ct64 and ctmul64) in one run: messages with 13 bytes of additional data, each with an IV and a tag
# of its own. Opening copies each ciphertext first, ours and BearSSL's.
. "$(dirname "$0")/seconds.sh"
second_build=$(proved gcm_bench --backend rattle -- seal 16 1)
first_build=$(proved gcm_bench -- seal 16 1)

what_runs_here
bearssl
printf '%-6s%-8s%10s%14s%14s%8s%14s%8s%10s%8s\n' call bytes ours 'second build' 'OpenSSL, off' ratio 'OpenSSL, on' ratio \
    BearSSL ratio
for size in 16 256 1024 65536; do
    for call in seal open; do
        decrypt=
        [ $call = seal ] || decrypt=-decrypt
        count=$((12000000 / (size + 64)))
        ours=$(rate $size $count "$first_build" $call)
        second=$(rate $size $count "$second_build" $call)
        without=$(openssl_rate "$off" $size -aead $decrypt -evp aes-256-gcm)
        with=$(openssl_rate "$on" $size -aead $decrypt -evp aes-256-gcm)
        constant=$(bearssl_rate $call $size $((count / 6)))
        printf '%-6s%-8d%10s%14s%14s%8s%14s%8s%10s%8s\n' $call $size "$ours" "$second" "$without" \
            "$(ratio "$ours" "$without")" "$with" "$(ratio "$ours" "$with")" "$constant" "$(ratio "$ours" "$constant")"
    done
done

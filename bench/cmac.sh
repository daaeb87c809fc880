#!/usr/bin/env bash
# CMAC with AES-256 on the proved build, beside OpenSSL's over texts as long, with its AES instructions off and on.
. "$(dirname "$0")/seconds.sh"
program=$(proved cmac_bench -- 16 1)

what_runs_here
for row in '65536 200' '1024 12000' '64 150000'; do
    read -r bytes count <<<"$row"
    ours=$(rate "$bytes" "$count" "$program")
    beside "CMAC, AES-256, $bytes bytes" "$ours" MB/s \
        'OpenSSL, instructions off' "$(openssl_rate "$off" "$bytes" -cmac aes-256-cbc)" \
        'OpenSSL, instructions on' "$(openssl_rate "$on" "$bytes" -cmac aes-256-cbc)"
done

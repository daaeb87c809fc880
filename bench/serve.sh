#!/usr/bin/env bash
# The proved `serve`, from its bytes in to its bytes out, in processor time:
#
# - on a million ShowStatus commands, or as many as the first word says, beside a C program that reads the same commands,
#   knows their reply, and makes the same writes: what is above it is the module, and the rest is the system's;
# - on Seal, Open, Mac, Hash and Random at 64 bytes, 1 KiB and 64 KiB, each command by itself, beside `openssl speed` with the
#   instructions for AES and products off and on. OpenSSL calls no system for a text, and keeps its key: so its figure at 64
#   bytes is out of reach of what answers commands.
. "$(dirname "$0")/served.sh"
count=${1:-1000000}
command -v cc >/dev/null || fail 'there is no C compiler for the floor'
cat >floor.c <<'END_OF_C'
#include <unistd.h>
int main(void) {
    static unsigned char chunk[65536], reply[24] = {0x5c, 1, 4};
    long held = 0, got;
    while ((got = read(0, chunk, sizeof chunk)) > 0)
        for (held += got; held >= 8; held -= 8)
            if (write(1, reply, sizeof reply) != sizeof reply) return 6;
    return got < 0 ? 5 : 0;
}
END_OF_C
cc -O2 -o floor floor.c || fail 'the floor is not built'

show_status() {
    python3 -c 'import sys; sys.stdout.buffer.write(b"\xc5\1\4\0\0\0\0\0" * int(sys.argv[1]))' "$1"
}

beside_the_floor() {
    local ours floor
    show_status $((count / 10)) >few
    show_status $((count + count / 10)) >many
    ours=$(served replies "${serve[@]}")
    floor=$(served floor_replies ./floor)
    cmp -s replies floor_replies || fail 'serve and its floor wrote different bytes'
    beside "ShowStatus, $count of them" "$(ratio "$count" "$ours")" k/s 'a C program with the same writes' "$(ratio "$count" "$floor")"
}

# given SERVICE BYTES: how many bytes of replies so many commands have, without their 24 bytes of header
given() {
    case $1 in
        Seal) echo $(($2 + 28)) ;;
        Mac | Hash) echo 32 ;;
        *) echo "$2" ;;
    esac
}

# served_rate SERVICE BYTES: MB/s of commands for a service, all of which must have been done
served_rate() {
    local service=$1 size=$2 times took begun all
    times=$((60000000 / (size + 600)))
    python3 -B "$top/bench/commands.py" "$service" "$size" $((times / 10)) "${serve[@]}" >few || fail "there are no commands for $service"
    python3 -B "$top/bench/commands.py" "$service" "$size" $((times + times / 10)) "${serve[@]}" >many || fail "there are no commands for $service"
    took=$(served replies "${serve[@]}")
    "${serve[@]}" <few >few_replies
    begun=$(stat -c %s few_replies)
    all=$(stat -c %s replies)
    [ $((all - begun)) -eq $((times * (24 + $(given "$service" "$size")))) ] || fail "not every $service of $size bytes was done"
    awk -v bytes=$((size * times)) -v time="$took" 'BEGIN { printf "%.1f", bytes / time / 1000 }'
}

# peer_rate MASK SERVICE BYTES: MB/s of `openssl speed`. Random is beside OpenSSL's own generator, which is another (CTR_DRBG with AES).
peer_rate() {
    case $2 in
        Seal) openssl_rate "$1" "$3" -aead -evp aes-256-gcm ;;
        Open) openssl_rate "$1" "$3" -aead -decrypt -evp aes-256-gcm ;;
        Mac) openssl_rate "$1" "$3" -hmac sha256 ;;
        Hash) openssl_rate "$1" "$3" -evp sha256 ;;
        Random) openssl_rate "$1" "$3" rand ;;
    esac
}

what_runs_here
beside_the_floor
# the instructions for digests too
without="$off:~0x20000000"
hmac_of_a_block=$(openssl_rate "$on" 32 -hmac sha256)
for service in Seal Open Mac Hash Random; do
    for size in 64 1024 65536; do
        ours=$(served_rate $service $size)
        others=()
        # the generator is HMACs of 32 bytes under one key
        [ $service = Random ] && others=('openssl speed -hmac, 32 bytes' "$hmac_of_a_block")
        beside "$service of $size bytes" "$ours" MB/s 'OpenSSL, instructions off' "$(peer_rate "$without" $service $size)" \
            'OpenSSL, instructions on' "$(peer_rate "$on" $service $size)" "${others[@]}"
    done
done

#!/usr/bin/env bash
# The proved `session` and `vectors`, in processor time, beside Python over hashlib, hmac and cryptography (which is OpenSSL), with the
# instructions for AES, products and digests off and on:
#
# - a session of 100,000 commands, which is the longest, or of as many as the first word says, less one of a tenth: from the number to the
#   digest of all replies. Its texts have 2 KiB in the mean. The peer makes the same commands and replies, and has to write the same summary;
# - 20,000 short lines of sha256 and 5,000 of seal. The peer reads the same lines, and has to write the same report.
. "$(dirname "$0")/served.sh"
count=${1:-100000}
# the instructions for digests too
without="$off:~0x20000000"
python3 -c 'import cryptography' 2>/dev/null || fail 'there is no python3 with cryptography for the peer'

# session_time NAME WORDS..: the milliseconds of a session by a program, less those of one of a tenth; the last summary stands in NAME
session_time() {
    local name=$1 begun all
    shift
    begun=$(output=$name least "${@//COUNT/$((count / 10))}")
    all=$(output=$name least "${@//COUNT/$count}")
    echo $((all > begun ? all - begun : 1))
}

# beside_the_peer NAME COUNT OURS OFF ON: thousands a second, from milliseconds
beside_the_peer() {
    beside "$1" "$(ratio "$2" "$3")" k/s 'Python, instructions off' "$(ratio "$2" "$4")" 'Python, instructions on' "$(ratio "$2" "$5")"
}

sessions() {
    local ours others=() peer=(python3 -B "$top/bench/session_peer.py" 7 COUNT noise)
    # shellcheck disable=SC2154
    ours=$(session_time summary "$program" session 7 COUNT image digest noise)
    for mask in "$without" "$on"; do
        others+=("$(OPENSSL_ia32cap=$mask session_time peer_summary "${peer[@]}")")
        cmp -s summary peer_summary || fail 'session and its peer wrote different summaries'
    done
    grep -qx 'state User' summary || fail 'the noise of a session came to its end'
    beside_the_peer "session 7 $count" $((count - count / 10)) "$ours" "${others[@]}"
}

# vectors KIND COUNT
vectors() {
    local kind=$1 lines=$2 ours others=() peer=(python3 -B "$top/bench/vector_peer.py")
    "${peer[@]}" make "$kind" $((lines / 10)) >few
    "${peer[@]}" make "$kind" $((lines + lines / 10)) >many
    ours=$(served report "$program" vectors)
    for mask in "$without" "$on"; do
        others+=("$(OPENSSL_ia32cap=$mask served peer_report "${peer[@]}" try)")
        cmp -s report peer_report || fail "vectors and its peer wrote different reports on $kind"
    done
    [ "$(tail -n 1 report)" = "$((lines + lines / 10)) of $((lines + lines / 10))" ] || fail "not every line of $kind passed"
    beside_the_peer "vectors, $lines lines of $kind" "$lines" "$ours" "${others[@]}"
}

what_runs_here
sessions
vectors sha256 20000
vectors seal 5000

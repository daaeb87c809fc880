# Sourced by the scripts beside it: the one way in which they time.
#
# - Processor time counts, of the user and of the system, taken from outside: other work on the machine weighs on it less
#   than on the wall's.
# - A program runs at two counts, and the difference counts, so that its beginning falls out.
# - Of five runs the shortest counts, for our programs and for each peer alike.
# - Programs are proved and built as a script begins, so that none is stale, and copied, so that none changes meanwhile.
# - A peer runs in the same script, and each line has a ratio with it.
set -eu
runs=5
top=$(cd "$(dirname "${BASH_SOURCE[0]}")/.." && pwd)
room=$(mktemp -d)
trap 'rm -rf "$room"' EXIT
trap 'exit 1' TERM

# Ends the script, also from within a `$(..)`.
fail() {
    echo "bench: FAILED: $*" >&2
    kill -TERM $$
    exit 1
}

# proved CRATE [WORDS FOR rt..] -- WORDS..: proves, builds and runs a crate once, and tells the place of a copy of the program
proved() {
    local crate=$1 options=() copy
    shift
    while [ "$1" != -- ]; do
        options+=("$1")
        shift
    done
    copy=$(mktemp -d "$room/built.XXXXXX")/$crate
    if ! (cd "$top/crates/$crate" && rt run "${options[@]}" "$@") </dev/null >"$room/said" 2>&1; then
        tail -n 5 "$room/said" >&2
        fail "crates/$crate is not proved, or did not run"
    fi
    cp "$top/crates/$crate/out/$crate" "$copy"
    echo "$copy"
}

# least WORDS..: the least processor time of the runs of a program, in milliseconds; it reads $input and writes $output
least() {
    local best= taken run TIMEFORMAT='%3U %3S'
    for ((run = 0; run < runs; run++)); do
        taken=$({ time "$@" <"${input:-/dev/null}" >"${output:-/dev/null}" 2>"$room/said"; } 2>&1) ||
            fail "$* ended with status $?: $(tail -n 1 "$room/said")"
        taken=$(awk -v both="$taken" 'BEGIN { split(both, each, " "); printf "%d", 1000 * (each[1] + each[2]) + 0.5 }')
        if [ -z "$best" ] || [ "$taken" -lt "$best" ]; then best=$taken; fi
    done
    echo "$best"
}

# turn COUNT PROGRAM..: the nanoseconds of a turn of a program whose last word is a count, between COUNT and three times COUNT
turn() {
    local count=$1 few many
    shift
    few=$(least "$@" "$count")
    many=$(least "$@" $((3 * count)))
    awk -v count="$count" -v time=$((many - few)) 'BEGIN { printf "%.1f", (time > 0 ? time : 1) * 500000 / count }'
}

# rate BYTES COUNT PROGRAM..: MB/s of a program whose last words are BYTES, of a turn, and a count
rate() {
    local size=$1 count=$2 time
    shift 2
    time=$(turn "$count" "$@" "$size")
    speed_of "$size" "$time"
}

# speed_of BYTES NANOSECONDS: MB/s
speed_of() {
    awk -v bytes="$1" -v time="$2" 'BEGIN { printf "%.1f", 1000 * bytes / time }'
}

# Masks of OpenSSL's instructions for AES and for products without carries.
off='~0x200000200000000'
on=':'

# openssl_rate MASK BYTES WORDS..: MB/s that `openssl speed` tells, which takes user time
openssl_rate() {
    local mask=$1 size=$2 run
    shift 2
    for ((run = 0; run < runs; run++)); do
        OPENSSL_ia32cap=$mask openssl speed -bytes "$size" -seconds 1 "$@" 2>/dev/null
    done | awk '$NF ~ /^[0-9.]+k$/ && $NF + 0 > best { best = $NF + 0 } END { printf "%.1f", best / 1000 }'
}

# ratio A B: to two places, and a dash where there is no B
ratio() {
    awk -v a="$1" -v b="$2" 'BEGIN { if (b == "-") printf "-"; else printf "%.2f", a / b }'
}

# bearssl: makes bearssl.c, which lies beside this, or says that this peer is skipped
bearssl() {
    if ! cc -O2 -o "$room/bearssl" "$top/bench/bearssl.c" -lbearssl 2>/dev/null; then
        echo 'BearSSL is skipped, since there is no C compiler, no libbearssl-dev or no bench/bearssl.c'
    fi
}

# bearssl_rate CALL BYTES COUNT: as `rate`, and a dash where BearSSL is skipped
bearssl_rate() {
    if [ -x "$room/bearssl" ]; then
        rate "$2" "$3" "$room/bearssl" "$1"
    else
        echo -
    fi
}

# beside NAME OURS UNIT PEER'S NAME..: a line for each pair of a peer and its figure, of the same unit, with the ratio; a peer
# whose figure is a dash has none
beside() {
    local name=$1 ours=$2 unit=$3
    shift 3
    while [ "$#" -gt 0 ]; do
        [ "$2" = - ] || printf '%-30s %10s %s   %-32s %10s %s   ratio %s\n' "$name" "$ours" "$unit" "$1" "$2" "$unit" "$(ratio "$ours" "$2")"
        shift 2
    done
}

# what_runs_here: the processor and the peer
what_runs_here() {
    sed -n 's/^model name[^:]*: //p' /proc/cpuinfo | head -n 1
    openssl version
}

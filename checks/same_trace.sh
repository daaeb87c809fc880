#!/usr/bin/env bash
# Whether the instructions that run and the addresses that are touched are the same whatever the key and the text are: see
# same_trace.py. No proof speaks of that.
#
#   same_trace.sh                        the works of crates/trace_bench below, as each of the two compilers builds them
#   same_trace.sh PROGRAM BYTES WORDS..  the program with these words, which takes BYTES bytes from standard input
#
# It takes the programs that `rt ci` left, or builds the first of them.
set -u
cd "$(dirname "$0")/.." || exit 1
for tool in valgrind python3; do
    if ! command -v "$tool" >/dev/null; then
        echo "same_trace: skipped, since there is no $tool"
        exit 0
    fi
done
if [ "$#" -gt 0 ]; then
    exec python3 checks/same_trace.py alike "$@"
fi

bytes=1000
# Each with a key of 32 bytes and a text of $bytes bytes.
works='absorb lanes seal open refuse
    wrap unwrap refuse_unwrap wrap_pad unwrap_pad refuse_unwrap_pad
    mac derive generate'
# It reads a table at places that the text gives, so the check must find it: else the check sees nothing.
control=table

program=crates/trace_bench/out/trace_bench
if [ ! -x "$program" ] || [ -n "$(find crates/*/src crates.txt -newer "$program" -print -quit)" ]; then
    if ! (cd crates/trace_bench && rt run -- absorb 0 </dev/zero) >/dev/null 2>&1; then
        echo 'same_trace: FAILED: crates/trace_bench is not proved, or did not run'
        exit 1
    fi
fi
for build in "$program" "$program.by-rattle"; do
    [ -x "$build" ] || continue
    for work in $works; do
        python3 checks/same_trace.py alike "$build" $((32 + bytes)) "$work" "$bytes" || exit 1
    done
    python3 checks/same_trace.py unlike "$build" $((32 + bytes)) "$control" "$bytes" || exit 1
done

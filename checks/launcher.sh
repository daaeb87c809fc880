#!/usr/bin/env bash
# What ./warlinden does with its words, from any folder, and that the demo gets the replies that it expects.
set -u
cd "$(dirname "$0")/.." || exit 1
top=$PWD
room=$(mktemp -d) || exit 1
trap 'rm -rf "$room"' EXIT

fail() {
    echo "launcher: FAILED: $*"
    exit 1
}

# ends STATUS OUT ERR WORDS..: the status, and what the two outputs begin with; `-` is none. The file $input is read, if it is named.
ends() {
    local wanted=$1 out=$2 err=$3 status
    shift 3
    "$@" <"${input:-/dev/null}" >"$room/out" 2>"$room/err"
    status=$?
    [ "$status" -eq "$wanted" ] || fail "$* ended with $status in place of $wanted: $(tail -n 1 "$room/err")"
    begins "$room/out" "$out" || fail "$* wrote '$(head -n 1 "$room/out")' to standard output"
    begins "$room/err" "$err" || fail "$* wrote '$(head -n 1 "$room/err")' to standard error"
}

begins() {
    if [ "$2" = - ]; then
        [ ! -s "$1" ]
    else
        head -n 1 "$1" | grep -q "^$2"
    fi
}

# Nothing is built for these: there is no rt, and no program in this copy.
mkdir "$room/copy" "$room/bin" || exit 1
cp -r warlinden crates.txt HANDLES examples "$room/copy/" || exit 1
for tool in bash sh env dirname readlink cat awk find grep; do
    ln -s "$(command -v "$tool")" "$room/bin/" || exit 1
done
copy=$room/copy/warlinden
bare=(env "PATH=$room/bin")
for words in '' frobnicate 'demo demo' 'build now' Serve serve 'serve image digest' 'serve a b c d' digest 'digest a b' \
    Try 'try it' operate 'operate image digest' 'operate a b c d' session 'session 7 0 image digest' 'session 7 0 a b c d' 'vectors now' Check 'check transcript' \
    backup 'backup keys image digest' 'backup a b c d e' restore 'restore keys kept image digest' 'restore a b c d e f'; do
    # shellcheck disable=SC2086
    ends 2 - 'usage: warlinden' "${bare[@]}" "$copy" $words
done
for word in help --help -h; do
    ends 0 'usage: warlinden' - "${bare[@]}" "$copy" "$word"
done
ends 127 - 'warlinden: .*no rt' "${bare[@]}" "$copy" serve image digest noise
ends 127 - 'warlinden: .*no rt' "${bare[@]}" "$copy" operate image digest noise
ends 127 - 'warlinden: .*no rt' "${bare[@]}" "$copy" session 7 0 image digest noise
ends 127 - 'warlinden: .*no rt' "${bare[@]}" "$copy" vectors
ends 127 - 'warlinden: .*no rt' "${bare[@]}" "$copy" check
ends 127 - 'warlinden: .*no rt' "${bare[@]}" "$copy" backup keys image digest noise
ends 127 - 'warlinden: .*no rt' "${bare[@]}" "$copy" restore keys kept image digest noise
ends 127 - 'warlinden: .*no rt' "${bare[@]}" "$copy" digest image
ends 127 - 'warlinden: .*no rt' "${bare[@]}" "$copy" try
ends 127 - 'warlinden: .*no rt' "${bare[@]}" "$copy" build
ends 127 - 'warlinden: .*python3' "${bare[@]}" "$copy" demo
if [ -e /dev/full ]; then
    ends 125 - 'warlinden: standard output' bash -c 'exec "$0" help >/dev/full' "$copy"
fi
if command -v dash >/dev/null; then
    ends 126 - 'warlinden: .*needs bash' dash "$copy"
fi

# The built program: through a symlink, from another folder, without core files.
./warlinden build || fail 'the program is not built'
ln -s "$top/warlinden" "$room/link"
cd "$room" || exit 1
ends 0 - - "$room/link" build
printf abc >image
ends 0 f0133729c4163dede81e21cd47839256da58171238c8a0d874397c73b14e1e47 - "$room/link" digest image
cp out digest || exit 1
ends 0 - - "$room/link" serve image digest /dev/null
ends 8 - 'file failed' "$room/link" serve image digest none
ends 11 - 'bad digest file' "$room/link" serve image image /dev/null
ends 2 - 'usage: warlinden' "$room/link" serve now

# Lines, sessions, vectors and transcripts.
printf '# a note\npoweron 0\nversion' >lines
printf 'status\nfrob\nstatus\n' >bad_line
printf 'sha256 616263 %s\n' ba7816bf8f01cfea414140de5dae2223b00361a396177a9cb410ff61f20015ad >vector
printf 'sha256 616263 00\n' >other_vector
input=lines ends 0 'Ok Init 0 0000 000000000000000000000000 -$' - "$room/link" operate image digest /dev/null
[ "$(tail -n 1 out)" = 'Ok Init 0 0000 53594d4d4f442030312e3030 -' ] || fail "operate wrote '$(tail -n 1 out)' to its last line"
input=bad_line ends 10 'Ok Off 0 0000 000000000000000000000000 -$' 'bad line$' "$room/link" operate image digest /dev/null
[ "$(tail -n 1 out)" = 'bad line 2' ] || fail "operate wrote '$(tail -n 1 out)' at a bad line"
ends 11 - 'bad digest file' "$room/link" operate image image /dev/null
ends 0 'commands 11$' - "$room/link" session 7 0 image digest /dev/zero
[ "$(tail -n 2 out | head -n 1)" = 'state Error' ] || fail 'a session over noise without end that is stuck did not end in Error'
ends 2 - 'usage: serve, operate, digest, session, vectors, backup, restore or check$' "$room/link" session 07 0 image digest /dev/zero
input=vector ends 0 '1 pass$' - "$room/link" vectors
input=other_vector ends 1 '1 fail$' 'a vector failed$' "$room/link" vectors
input=bad_line ends 10 'bad line 1$' 'bad line$' "$room/link" vectors
# ShowStatus in Off and its reply; the same reply, which tells the state Init; half of it
printf '\xc5\x01\x04\0\0\0\0\0\x5c\x01\x04\0\0\0\0\0\0\0\0\0\0\0\0\0\0\0\0\0\0\0\0\0' >transcript
printf '\xc5\x01\x04\0\0\0\0\0\x5c\x01\x04\0\1\0\0\0\0\0\0\0\0\0\0\0\0\0\0\0\0\0\0\0' >other_transcript
head -c 20 transcript >half_transcript
input=transcript ends 0 'lawful 1$' - "$room/link" check
input=other_transcript ends 16 'pair 1$' 'not lawful$' "$room/link" check
input=half_transcript ends 4 - 'truncated frame$' "$room/link" check
input=lines ends 3 - 'bad frame$' "$room/link" check
ends 0 'lawful 0$' - "$room/link" check

# Backups: of no slot, restored, and one that is cut.
head -c 64 /dev/zero >keys
printf '%s\n' 'poweron 0' tests step step step 'role officer' >officer_lines
input=officer_lines ends 0 'SMB1' - "$room/link" backup keys image digest /dev/urandom
[ "$(wc -c <out)" -eq 37 ] || fail "backup wrote $(wc -c <out) bytes of no slot"
cp out kept
head -c 36 kept >cut
input=lines ends 0 'NotInState Officer' - "$room/link" restore keys kept image digest /dev/urandom
input=lines ends 15 - 'bad backup$' "$room/link" restore keys cut image digest /dev/urandom
input=lines ends 14 - 'not officer$' "$room/link" backup keys image digest /dev/urandom
input=lines ends 13 - 'bad key file$' "$room/link" backup image image digest /dev/urandom
input=bad_line ends 10 'bad line 2$' 'bad line$' "$room/link" backup keys image digest /dev/urandom
rm keys

# A module to try: its folder is gone in the end, however it ends.
mkdir tried || exit 1
trying=(env "TMPDIR=$room/tried" "$room/link" try)
ends 0 - 'warlinden: a module of your own' "${trying[@]}"
input=lines ends 0 'Ok Init 0 0000 000000000000000000000000 -$' 'warlinden: a module of your own' "${trying[@]}"
input=bad_line ends 10 'Ok Off 0 0000 000000000000000000000000 -$' 'warlinden: a module of your own' "${trying[@]}"
tail -n 1 err | grep -q '^warlinden: .*no command' || fail "try says '$(tail -n 1 err)' of a bad line"
# each line that it tells, as it stands before its explanation, is done
sed -n '/^  [a-z]/ { s/^  //; s/   .*//; p }' err >told
[ "$(wc -l <told)" -ge 10 ] || fail 'try tells too few lines to begin with'
input=told ends 0 'Ok Init' 'warlinden: a module of your own' "${trying[@]}"
[ "$(grep -c '^Ok ' out)" -eq "$(wc -l <told)" ] || fail "of the lines that try tells one is answered '$(grep -v '^Ok ' out | head -n 1)'"
ends 125 - 'warlinden: no temporary folder' env "TMPDIR=$room/none" "$room/link" try
[ -z "$(ls tried)" ] || fail "try left $(ls tried) behind"

# A signal that ends `try` ends its module: nobody reads what is typed then.
mkfifo keys || exit 1
"${trying[@]}" <keys >out 2>err &
launched=$!
exec 3>keys
echo status >&3
for ((tenth = 0; tenth < 300; tenth++)); do
    [ -s out ] && break
    sleep 0.1
done
[ "$(cat out)" = 'Ok Off 0 0000 000000000000000000000000 -' ] || fail "try answers '$(cat out)'"
[ -n "$(ls tried)" ] || fail 'try has no folder while it runs'
kill -TERM "$launched"
wait "$launched"
[ $? -eq 143 ] || fail 'try does not end by SIGTERM'
for ((tenth = 0; tenth < 100; tenth++)); do
    (trap '' PIPE && echo status >&3) 2>/dev/null || break
    sleep 0.1
done
[ "$tenth" -lt 100 ] || fail 'the module goes on after try was ended'
exec 3>&-
[ -z "$(ls tried)" ] || fail "try left $(ls tried) behind after a signal"
if python3 -c 'import sys; sys.exit(sys.version_info < (3, 8))' 2>/dev/null; then
    ends 0 'The image has' - "$room/link" demo
    ends 125 - 'client: .*write' bash -c 'exec "$0" demo >/dev/full' "$room/link"
fi
echo 'launcher: passed'

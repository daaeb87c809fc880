# Sourced by the scripts beside it that time the proved program: builds it, and works in a folder of its own.
. "$(dirname "${BASH_SOURCE[0]}")/seconds.sh"
"$top/warlinden" build || fail 'the program is not proved'
program=$room/module_program
cp "$top/crates/module_program/out/module_program" "$program"
cd "$room"
# What it serves: an image, its digest, and noise for the tests and for a reseed after each 1,024 draws.
printf abc >image
"$program" digest image >digest || fail 'the image has no digest'
head -c 1000000 /dev/urandom >noise
serve=("$program" serve image digest noise)

# served NAME COMMAND..: the milliseconds from the file `many` to its replies, less those from the file `few`; the last replies stand in NAME
served() {
    local name=$1 begun all
    shift
    begun=$(input=few output=$name least "$@")
    all=$(input=many output=$name least "$@")
    echo $((all > begun ? all - begun : 1))
}

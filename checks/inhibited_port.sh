#!/usr/bin/env bash
# A service with an inhibited port has no call that adds bytes to the reply. A use of `put` on such a
# port is no proof that fails but code that doesn't compile, so it is tried here on a copy: with an
# enabled port it is proved, with an inhibited one the method is unknown.
set -u
top=$(cd "$(dirname "$0")/.." && pwd) || exit 1
copy=$(mktemp -d) || exit 1
trap 'rm -rf "$copy"' EXIT

mkdir "$copy/crates" || exit 1
cp -r "$top/crates/bits_core" "$copy/crates/" || exit 1
rm -rf "$copy/crates/bits_core/out"
cp "$top/HANDLES" "$copy/" || exit 1
echo 'bits_core:' > "$copy/crates.txt"
port_file="$copy/crates/bits_core/src/port.rt"

# use_of MARKER: adds a function that puts a byte through a port with this marker, and checks the crate
use_of() {
    cp "$top/crates/bits_core/src/port.rt" "$port_file" || exit 1
    cat >> "$port_file" <<END

/// Puts one byte.
pub fn put_once(outbox: &mut Outbox)
    requires { 1 ≤ outbox.old.room }
{
    let mut port = Port::<$1>::over(outbox);
    port.put(&[7]);
}
END
    (cd "$copy/crates/bits_core" && rt check) > "$copy/$1.log" 2>&1
}

if ! use_of Enabled; then
    echo 'inhibited_port: a use of `put` on an enabled port is not proved:'
    grep -E 'error|no proof' "$copy/Enabled.log" | head -5
    exit 1
fi
if use_of Inhibited; then
    echo 'inhibited_port: a use of `put` on an inhibited port compiles'
    exit 1
fi
if ! grep -q 'unknown-method' "$copy/Inhibited.log"; then
    echo 'inhibited_port: refused, but not for an unknown method:'
    head -5 "$copy/Inhibited.log"
    exit 1
fi
echo 'inhibited_port: passed'

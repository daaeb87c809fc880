#!/usr/bin/env bash
# A module can't be let go: only `close` spends one. A function that lets one go is no proof that fails but code that doesn't compile, so
# it is tried here on a copy, before any proof: the same function compiles where it closes the module, and else is refused.
set -u
top=$(cd "$(dirname "$0")/.." && pwd) || exit 1
copy=$(mktemp -d) || exit 1
trap 'rm -rf "$copy"' EXIT

cp "$top/HANDLES" "$top/crates.txt" "$copy/" || exit 1
mkdir "$copy/crates" || exit 1
for crate in "$top"/crates/*/; do
    name=$(basename "$crate")
    mkdir "$copy/crates/$name" || exit 1
    for part in src specs proofs; do
        [ ! -e "$crate$part" ] || cp -r "$crate$part" "$copy/crates/$name/" || exit 1
    done
done
module_file="$copy/crates/state_model/src/module.rt"

# spent_by STATEMENT LOG: adds a function that has a module and does this, and compiles the crate with its tests
spent_by() {
    cp "$top/crates/state_model/src/module.rt" "$module_file" || exit 1
    cat >> "$module_file" <<END

/// Spends a module that was shut.
pub fn spend<E: Engine>(spent: Module<E>)
    requires { IsShut spent }
{
    $1
}
END
    (cd "$copy/crates/state_model" && rt try --test) > "$copy/$2.log" 2>&1
}

if ! spent_by 'spent.close();' closed; then
    echo 'unclosed_module: a function that closes its module does not compile:'
    grep -E 'error' "$copy/closed.log" | head -5
    exit 1
fi
if spent_by 'let _ = spent.state();' let_go; then
    echo 'unclosed_module: a function that lets its module go compiles'
    exit 1
fi
if ! grep -q 'error\[linear-value-let-go\]: `spent`' "$copy/let_go.log"; then
    echo 'unclosed_module: refused, but not since its module is let go:'
    head -5 "$copy/let_go.log"
    exit 1
fi
echo 'unclosed_module: passed'

#!/usr/bin/env bash
# bindings/check-api.sh: the examples of docs/API.md, taken from the page: each C program prints what the page says, each Rust one runs.
# SIRVESHAN_LIB_DIR names a folder with another libsirveshan.a.
set -euo pipefail
here=$(dirname "$(readlink -f "$0")")
root=$(cd "$here/.." && pwd)
. "$root/tools/x86.sh"
. "$root/bindings/library.sh"
find_x86_cc
find_library
work=$(mktemp -d)
trap 'rm -rf "$work"' EXIT

# Block k of the language $1, counted from 1, and how many there are.
block() { awk -v language="$1" -v wanted="$2" '$0 == "```" { on = 0 } on { print } $0 == "```" language { on = (++k == wanted) }' "$root/docs/API.md"; }
blocks() { grep -c "^\`\`\`$1\$" "$root/docs/API.md"; }

count=$(blocks c)
[ "$count" = "$(blocks output)" ] || stop 1 "docs/API.md has $count C programs and $(blocks output) outputs"
for k in $(seq "$count"); do
    block c "$k" > "$work/example.c"
    "${x86_cc[@]}" -std=c99 -O2 -Wall -Wextra -Werror -pedantic -I "$root/include" "$work/example.c" "$archive" -o "$work/example"
    "${x86_static[@]}" "$work/example" > "$work/found"
    diff <(block output "$k") "$work/found" || stop 1 "C program $k of docs/API.md prints something else than the page says"
done

# The crate's documentation tests have this page among them.
found=$(cd "$here/rust" && x86_cargo test --offline --quiet --doc -- api_page) || { echo "$found"; exit 1; }
ran=$(sed -n 's/.* \([0-9]*\) passed.*/\1/p' <<< "$found")
[ "$ran" = "$(blocks rust)" ] || { echo "$found"; stop 1 "docs/API.md has $(blocks rust) Rust programs, and $ran were run"; }
echo "docs/API.md: $count C and $ran Rust programs"

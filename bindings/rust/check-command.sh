#!/usr/bin/env bash
# bindings/rust/check-command.sh: builds the command and drives it (check_command.py). SIRVESHAN_LIB_DIR names a folder with another libsirveshan.a.
# On another processor than x86-64 tools/x86.sh finds what builds and runs it.
set -euo pipefail
here=$(dirname "$(readlink -f "$0")")
root=$(cd "$here/../.." && pwd)
. "$root/tools/x86.sh"
. "$root/bindings/library.sh"
need python3 "it drives the command"
find_library
find_x86
x86_cargo build --release --offline --quiet --bin sirveshan --manifest-path "$here/Cargo.toml"
python3 "$here/check_command.py" "${x86_static[@]}" "$here/target/${x86_folder}release/sirveshan"

# The script at the project's root, through a link and from another folder.
work=$(mktemp -d)
trap 'rm -rf "$work"' EXIT
ln -s "$root/sirveshan" "$work/link"
cp "$root/examples/face.record" "$work"
(cd "$work" && ./link mesh face.record > found)
python3 "$root/tools/reference.py" mesh < "$root/examples/face.record" | diff - "$work/found"
status=0
(cd "$work" && ./link mesh nothing.record > found 2> said) || status=$?
[ "$status" = 2 ] || stop 1 "./sirveshan ends with $status where there is no record"
echo "./sirveshan: the same through a link and from another folder"

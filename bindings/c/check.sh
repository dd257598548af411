#!/usr/bin/env bash
# bindings/c/check.sh: the header by itself, and every C program here over the library: built without a warning, run, its answer seen.
# SIRVESHAN_LIB_DIR names a folder with another libsirveshan.a. On another processor than x86-64 tools/x86.sh finds what runs them.
set -euo pipefail
here=$(dirname "$(readlink -f "$0")")
root=$(cd "$here/../.." && pwd)
. "$root/tools/x86.sh"
. "$root/bindings/library.sh"
find_x86_cc
find_library
work=$(mktemp -d)
trap 'rm -rf "$work"' EXIT
strict=(-O2 -Wall -Wextra -Werror -pedantic -I "$root/include")

# The header alone, and twice, as C and as C++.
printf '#include "sirveshan.h"\n#include "sirveshan.h"\n' > "$work/header.c"
"${x86_cc[@]}" -std=c99 "${strict[@]}" -c "$work/header.c" -o "$work/header.o"
if command -v g++ > /dev/null; then
    g++ -x c++ "${strict[@]}" -fsyntax-only "$work/header.c"
else
    echo "no g++: the header was not tried as C++"
fi

for program in check_viewer check_extract check_record check_stl check_repair check_volume check_sheet check_weld check_whole check_layers stack mesh_record; do
    "${x86_cc[@]}" -std=c99 "${strict[@]}" "$here/$program.c" "$archive" -lm -pthread -o "$work/$program"
done
failures=0
for program in check_viewer check_extract check_record check_stl check_repair check_volume check_sheet check_weld check_whole check_layers stack; do
    said=$("${x86_static[@]}" "$work/$program" "$root/examples/ledge.record") || failures=$((failures + 1))
    echo "$program: $said"
done

# The example, against the listing's own first line.
for record in case-a face face-finer ledge; do
    wanted=$(python3 "$root/tools/reference.py" mesh < "$root/examples/$record.record" | sed -n '1s/mesh \(.*\) \(.*\)/\1 vertices, \2 triangles/p')
    found=$("${x86_static[@]}" "$work/mesh_record" "$root/examples/$record.record") || failures=$((failures + 1))
    [ "$found" = "$wanted" ] || { echo "wanted: $wanted"; failures=$((failures + 1)); }
    echo "mesh_record $record: $found"
done
head -c 100 "$root/examples/face.record" > "$work/cut"
status=0
said=$("${x86_static[@]}" "$work/mesh_record" "$work/cut" 2>&1) || status=$?
echo "mesh_record, cut: $said, status $status"
[ "$status $said" = "1 refused 11 0 0 0" ] || failures=$((failures + 1))
[ "$failures" = 0 ] || stop 1 "$failures of these failed"

#!/bin/bash
# mkland.sh NEW BASE FROM TO "title": a linear branch NEW on BASE with the difference FROM..TO, in three commits
set -e
cd /work/chain
new=$1; base=$2; from=$3; to=$4; title=$5
git checkout -q -B $new $base
git diff --binary $from $to | git apply --index --3way 2>&1 | grep -v -E "^(Applied|Falling|Performing)" || true
bad=$(git diff --name-only --diff-filter=U)
for f in $bad; do echo "CONFLICT $f"; done
[ -z "$bad" ] || { echo "solve, then: commit parts"; exit 1; }

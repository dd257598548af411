#!/bin/bash
# lines.sh TREE: lines of specs and proofs by crate
cd $1; for c in crates/*/; do n=$(find $c -name '*.antt' -path '*s/*' | grep -E '/(specs|proofs)/' | xargs cat 2>/dev/null | wc -l); echo "$(basename $c) $n"; done

#!/bin/bash
cd /work/setup
go=/tmp/help/go
r() { local n=$1; shift; echo "== $n $(date +%T)"; ( time $go "$@" ) > /tmp/help/setup-run-$n.log 2>&1; echo "$n status $?"; grep -av " of [0-9]*$" /tmp/help/setup-run-$n.log | tail -4; }
r setup python3 compare/setup.py 7000
r samples python3 compare/samples.py 5000
r sheet python3 compare/sheet.py 2000
r blank python3 compare/blank.py 20000
r damaged python3 compare/damaged.py 20000
r whole python3 compare/whole.py 10000
r layered python3 compare/layered.py 3000
r reads python3 compare/reads.py 1000
r largest python3 compare/largest.py
r finer python3 compare/finer.py 1000
r repair python3 compare/repair.py 20000

#!/bin/bash
# mkbench.sh A.a B.a: both libraries renamed, linked with the bench
set -e
cd /tmp/first
for x in "a $1" "b $2"; do set -- $x
  ld -r -o $1.o --whole-archive $2
  nm --defined-only -g $1.o | awk '{print $3}' | grep ^sirveshan_ | sed "s/^sirveshan_\(.*\)/& ${1}_\1/" > $1.syms
  objcopy --redefine-syms=$1.syms $1.o; awk '{print $2}' $1.syms > $1.keep; objcopy --keep-global-symbols=$1.keep $1.o
done
gcc -O2 -std=c99 -Wall -I /work/first/include -I /work/first/bindings/c bench.c a.o b.o -lm -o bench

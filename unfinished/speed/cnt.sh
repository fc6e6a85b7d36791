#!/bin/bash
# cnt.sh LIB.a VER SIZES.. : instructions a run (mean of 32 files)
l=$1; v=$2; shift 2; T=$(mktemp); gcc -O2 -o $T /work/t/speed/cnt.c $l || exit 1
for n in "$@"; do
g(){ valgrind --tool=callgrind --callgrind-out-file=/dev/null $T $v $n $1 2>&1 | grep Collected | awk '{print $4}'; }
x=$(g 1); y=$(g 3); echo "$(basename $l) v$v $n: $(( (y-x)/64 ))"; done; rm -f $T

#!/bin/bash
# t.sh NAME LIBRT [QUERYRT]: counts a form of crates/run/src
n=$1; d=/work/t/fo2/w-$n; rm -rf $d; mkdir -p $d; cp -r /work/t/fo/crates /work/t/fo/crates.txt $d/; (cd $d; git -C /work/t/fo archive origin/main crates/run | tar x -C $d)
[ -n "$2" ] && cp $2 $d/crates/run/src/lib.rt; [ -n "$3" ] && cp $3 $d/crates/run/src/query.rt
nice -n 2 /work/t/speed/mk.sh $d/crates /work/t/fo2/$n.a 2>/tmp/t-$n.err || { echo "$n: no build"; tail -3 /tmp/t-$n.err; exit 1; }
gcc -O2 -I /work/main/include /work/t/speed/d.c $n.a -o d-$n
printf "%s " $n
for f in /work/t/files/v1-4096-0 /work/t/files/v2-4096-0 /work/t/files/v3-4096-0 /work/t/files/v2q-4096-0 /work/t/fo/tests/vectors/0000.schedule; do
x=$(valgrind --tool=callgrind --callgrind-out-file=/dev/null ./d-$n $f 1 2>&1 | grep Collected | awk '{print $4}'); y=$(valgrind --tool=callgrind --callgrind-out-file=/dev/null ./d-$n $f 6 2>&1 | grep Collected | awk '{print $4}'); k=$(./d-$n $f 1 | awk '{print $3}'); printf "%s " $(echo "scale=1; ($y-$x)/5/$k" | bc); done; echo; rm -rf $d

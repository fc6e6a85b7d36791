#!/bin/bash
# ab.sh A.a B.a VERSIONS.. : time of B over A
a=$1; b=$2; shift 2; T=$(mktemp -d)
for p in a b; do x=$a; [ $p = b ] && x=$b; mkdir $T/$p; (cd $T/$p; ar x $(realpath $OLDPWD/$x 2>/dev/null || echo $x)); for o in $T/$p/*.o; do objcopy --redefine-sym nuxalder_run=${p}_run $o; done; (cd $T/$p; ld -r -o ../$p.o *.o; objcopy --keep-global-symbol=${p}_run ../$p.o); done
gcc -O2 -o $T/ab /work/t/speed/ab.c $T/a.o $T/b.o || exit 1
list=$(pgrep -x rattle; pgrep -f "rt ci|rt check")
taskset -c 1 $T/ab "${@:-1}"
kill -CONT $list 2>/dev/null; rm -rf $T

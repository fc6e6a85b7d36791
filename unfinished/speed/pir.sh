#!/bin/bash
# pir.sh CLONE OUT.bc (in /work/t/speed/keep)
root=$1; cd $root/crates/nuxalder_c; kit=/opt/rattle; crate=nuxalder_c
rlib() { echo "$root/crates/$1/out/rlib/$1.rlib"; }
set -- --crate-name "$crate" src/lib.rt --extern "std=$kit/rlibs/std.rlib" -L "dependency=$kit/rlibs"
for name in $(sed -n "s/^$crate staticlib://p" "$root/crates.txt"); do set -- "$@" --extern "$name=$(rlib "$name")"; done
for made in "$root"/crates/*/out/rlib; do set -- "$@" -L "dependency=$made"; done
set -- "$@" --antt-project "$kit/rattle/logic/antt-project.json" --logic-built "$kit/logic_built" --jobs 2
set -- "$@" --links "$crate=" --crate-type staticlib --toolchain "/work/t/speed/kit/toolchain" --backend llvm
"$kit/bin/rattle" build "$@" -o /tmp/pir.a

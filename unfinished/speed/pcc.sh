#!/bin/bash
# pcc.sh IN.ll OUT.a [flags]
C=/opt/rattle/toolchain/bin/clang; T=$(mktemp -d); in=$1; out=$2; shift 2
$C --target=x86_64-unknown-linux-gnu -march=x86-64 -mllvm -no-trap-after-noreturn -ffunction-sections -fdata-sections -mllvm -trap-unreachable -mllvm -no-x86-call-frame-opt -mllvm -disable-machine-licm -mllvm -disable-postra-machine-licm -mllvm -sink-common-insts=false -Wno-everything -c -x ir $in -o $T/nuxalder.o -fPIC -O3 "$@" && rm -f $out && ar rcs $out $T/nuxalder.o; rm -rf $T

#!/bin/bash
# cc.sh IN.ll OUT.a
C=/opt/rattle/toolchain/bin/clang; T=$(mktemp -d)
$C --target=x86_64-unknown-linux-gnu -march=x86-64-v2 -mllvm -no-trap-after-noreturn -ffunction-sections -fdata-sections -mllvm -trap-unreachable -mllvm -no-x86-call-frame-opt -mllvm -disable-machine-licm -mllvm -disable-postra-machine-licm -mllvm -sink-common-insts=false -Wno-everything -c -x ir $1 -o $T/nuxalder.o -fPIC -O3 && rm -f $2 && ar rcs $2 $T/nuxalder.o; rm -rf $T

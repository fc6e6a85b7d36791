#!/bin/bash
# mk.sh SRC OUT.a : unproved library of a clone's sources
set -e
S=$1; OUT=$2; W=/work/t/speed/w-$(basename $OUT .a); rm -rf $W; mkdir -p $W/keep
python3 /work/t/speed/mkhost.py $S $W/src
exec 9>/work/t/speed/lock; flock 9; rm -f /work/t/speed/keep/*
(cd $W/src/crates/host; KEEP=$W/keep python3 /work/t/speed/kit/bin/rt try > $W/say 2>&1 || true)
f=$(ls -S /work/t/speed/keep/*module.bc | head -1); cp $f $W/m.bc; f=$W/m.bc
C=/opt/rattle/toolchain/bin/clang
$C --target=x86_64-unknown-linux-gnu -S -emit-llvm -x ir $f -O0 -Xclang -disable-llvm-passes -o $W/m.ll -Wno-everything
python3 /work/t/speed/post.py $W/m.ll $W/src $W/p.ll 2> $W/inl
$C --target=x86_64-unknown-linux-gnu -march=x86-64-v2 -mllvm -no-trap-after-noreturn -ffunction-sections -fdata-sections -mllvm -trap-unreachable -mllvm -no-x86-call-frame-opt -mllvm -disable-machine-licm -mllvm -disable-postra-machine-licm -mllvm -sink-common-insts=false -Wno-everything -c -x ir $W/p.ll -o $W/nuxalder.o -fPIC -O3
rm -f $OUT; ar rcs $OUT $W/nuxalder.o; nm $OUT | grep -c ' T nuxalder_'

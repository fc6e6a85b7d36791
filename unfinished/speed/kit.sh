#!/bin/bash
# kit.sh : a copy of the toolchain's folder at /work/t/speed/kit, whose clang keeps what it is given in /work/t/speed/keep
mkdir -p /work/t/speed/keep; cd /work/t/speed; mkdir -p kit/bin kit/toolchain/bin
for e in /opt/rattle/*; do b=$(basename $e); case $b in bin|toolchain) ;; *) ln -sfn $e kit/$b;; esac; done
for e in /opt/rattle/bin/*; do b=$(basename $e); case $b in rt|rtlib.py) cp $e kit/bin/;; *) ln -sfn $e kit/bin/$b;; esac; done
ln -sfn /opt/rattle/toolchain/lib kit/toolchain/lib
for b in llvm-ar ld.lld rattle-x64; do ln -sfn /opt/rattle/toolchain/bin/$b kit/toolchain/bin/$b; done
cp keep-clang kit/toolchain/bin/clang; chmod +x kit/toolchain/bin/clang

#!/bin/bash
# bench.sh LIB.a N : first lines of bench/run with this library, others stopped
l=$1; n=${2:-13}; d=/work/t/speed/lib-$(basename $l .a); mkdir -p $d; cp $l $d/libnuxalder.a
list=$(pgrep -x rattle; pgrep -f "rt ci|rt check")
cd /work/t/speed/bsrc; export NUXALDER_LIB_DIR=$d; export root=/work/t/speed/bsrc CARGO_TARGET_DIR=/work/t/speed/tgt-$(basename $l .a) CARGO_NET_OFFLINE=true
cargo build --quiet --release --locked --manifest-path bench/Cargo.toml || exit 1
kill -STOP $list 2>/dev/null
nm $CARGO_TARGET_DIR/release/speed | grep "run::carry_out"
taskset -c 1 $CARGO_TARGET_DIR/release/speed 2>/dev/null | head -$n
kill -CONT $list 2>/dev/null

#!/bin/bash
# keeps what runs below /work/gate before everything else; its must-fail provers after its other stages
while :; do
  for p in /proc/[0-9]*; do
    c=$(readlink $p/cwd 2>/dev/null) || continue
    case "$c" in
      /work/gate/*/target/must_fail*) n=-9;;
      /work/gate/*) n=-14;;
      *) continue;;
    esac
    for t in $p/task/*; do renice -n $n -p $(basename $t) >/dev/null 2>&1; done
  done
  sleep 3
done

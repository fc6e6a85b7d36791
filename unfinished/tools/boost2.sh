#!/bin/bash
# keeps the listed folders' processes ahead
while :; do
  for p in /proc/[0-9]*; do
    c=$(readlink $p/cwd 2>/dev/null) || continue
    case "$c" in
      /work/t/loop*) n=2;;
      /work/t/short*) n=6;;
      /work/t/lines*) n=8;;
      /work/t/gate*) n=8;;
      /work/gate/*/target/must_fail*) n=-4;;
      /work/gate/*) n=-9;;
      *) continue;;
    esac
    case "$(cat $p/comm 2>/dev/null)" in rattle*|clang|python3|chromium|node|rt|differential|cargo|rustc|ld*) ;; *) continue;; esac
    for t in $p/task/*; do renice -n $n -p $(basename $t) >/dev/null 2>&1; done
  done
  sleep 4
done

#!/bin/bash
# quiet.sh CMD..: everything else below /work stands still while CMD runs
me=$$
list=$(for p in /proc/[0-9]*; do q=$(basename $p); [ $q = $me ] && continue; [ $q = $PPID ] && continue; c=$(readlink $p/cwd 2>/dev/null) || continue; case "$c" in /work/t/*|/work/gate/*|/tmp/*) n=$(cat $p/comm 2>/dev/null); case "$n" in rattle*|cargo|rustc|callgrind*|valgrind*|differential|python3|clang|cc1|tm2*|b-b|ld*|chrom*|node) echo $q;; esac;; esac; done)
kill -STOP $list 2>/dev/null
"$@"
kill -CONT $list 2>/dev/null

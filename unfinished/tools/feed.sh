#!/bin/bash
# copies what the gate has proved into the set main
G=/work/gate/g0/target; S=/work/t/rlibs/main
mkdir -p $S/rlib $S/stamp $S/log
while :; do
  for s in $G/stamp/*; do n=$(basename $s); [ -e $S/stamp/$n ] && continue; [ -d $G/rlib/$n.rlib ] || [ -f $G/rlib/$n.rlib ] || continue
    sleep 1; rm -rf $S/rlib/$n.rlib; cp -a $G/rlib/$n.rlib $S/rlib/; cp -a $G/log/$n.* $S/log/ 2>/dev/null; cp -a $G/stamp/$n $S/stamp/; done
  sleep 5
done

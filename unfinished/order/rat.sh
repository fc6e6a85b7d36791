#!/bin/bash
# Run's lines of the base table, three libraries in turn
for i in 1 2 3; do
for d in /work/t/old-preb /work/t/old-b /work/gate/g1; do
  e=""; [ -d $d/lib ] && e="NUXALDER_LIB_DIR=$d/lib"
  printf "%s " $(basename $d)
  (cd $d; env $e timeout 14 nice -n -10 bench/run 2>/dev/null | awk '/^version 3/||/^Merge/{exit} /^version/{v=$2} /^splits/{v=""; exit} /^Run/&&v{printf "%s ", $NF} v==2&&/^Run +4096/{exit}')
  echo
done; done

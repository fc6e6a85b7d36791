#!/bin/bash
# least times of Run by library, version and size
for v in ${VS:-1 2}; do for s in ${SS:-1 16 64 256 1024 4096}; do printf "v%s %5s " $v $s; for l in preb b h main next; do best=999999999; for t in 1 2 3; do p=$((200000/s/4+40)); [ $p -gt 3000 ] && p=3000; x=$(nice -n -10 taskset -c 1 ./lt-$l $p /work/t/files/v$v-$s-{0,1,2,3}); [ ${x%.*} -lt $best ] && best=$x; done; printf "%s=%s " $l $best; done; echo; done; done

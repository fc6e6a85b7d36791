cd /work/t/h3-small/small; rt dev run > dev.txt 2>&1; grep -v "^rt: .*unchanged\|^library\|^logic \|note: " dev.txt | cut -c1-${W:-900} | head -${N:-60}

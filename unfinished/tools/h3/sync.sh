# sync.sh [MODULES of Lib to leave out, as a regexp]: the small copy has run without the loop
cd /work/t/h3-small/small; cp /work/t/h3/crates.txt .; mkdir -p crates
for c in container definitions answers nodes frames depths effects steps queries machine schedule buffer tree; do ln -sfn /work/t/h3/crates/$c crates/$c; done
mkdir -p crates/run; rsync -a --delete --exclude must-fail --exclude proofs/carry_out --exclude proofs/report --exclude proofs/run /work/t/h3/crates/run/ crates/run/ 2>/dev/null || { rm -rf crates/run; cp -r /work/t/h3/crates/run crates/run; rm -rf crates/run/must-fail crates/run/proofs/carry_out crates/run/proofs/report crates/run/proofs/run; }
if [ -n "$1" ]; then grep -vE "$1" crates/run/proofs/Lib.antt > l; for m in $(grep -E "$1" crates/run/proofs/Lib.antt | sed "s/.*mod //"); do rm -f crates/run/proofs/$m.antt; done; cp l crates/run/proofs/Lib.antt; fi
python3 - <<'PY'
p='crates/run/src/lib.rt'
s=open(p).read()
a=s.index('// All records of a file that is not refused'); b=s.index('// The bytes of a row buffer that Run asks for'); c=s.index('// Run of a file that is not refused, over the memory')
s=s[:a]+s[b:c].rstrip()+'\n'
for x in ['definitions::Report','schedule::Record','steps::Note','steps::search']: s=s.replace('use %s;\n'%x,'')
open(p,'w').write(s)
PY

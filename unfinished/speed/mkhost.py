# writes a crates.txt + crate host into a copy of the sources
import re,sys,os,shutil,subprocess
src,dst=sys.argv[1:3]
if os.path.exists(dst): shutil.rmtree(dst)
os.makedirs(dst)
shutil.copytree(src+'/crates',dst+'/crates',ignore=shutil.ignore_patterns('out','must-fail'))
for f in ('rt-version',): shutil.copy(src+'/'+f,dst)
lines=open(src+'/crates.txt').read()
dep=re.search(r'^nuxalder: (.*)$',lines,re.M).group(1)
lines+=f'host: {dep} nuxalder\n'
open(dst+'/crates.txt','w').write(lines)
t=open(src+'/crates/nuxalder_c/src/lib.rt').read()
t=re.sub(r'^ghost use.*\n','',t,flags=re.M)
t=re.sub(r'^    ensures.*\n','',t,flags=re.M)
t=t.replace('#[unsafe(no_mangle)]\n','').replace('pub extern "C" fn','fn').replace('#![tactic(auto)]\n','')
os.makedirs(dst+'/crates/host/src')
main='''
fn main() {
    let mut file = [0u8; 16388];
    let n = io::read_full(0, &mut file);
    let mut rows = [0u8; 28672];
    let mut report = [0u64; 6];
    let mut r2 = [0u64; 2];
    let mut r3 = [0u64; 3];
    let mut r4 = [0u64; 4];
    let mut r7 = [0u64; 7];
    let mut order = [0u8; 12];
    let mut tally = [0u32; 65];
    let mut text = [0u8; 8192];
    nuxalder_run(&file[..n], &mut rows, &mut report);
    io::write_all(1, &rows[..(report[2] as usize)]);
    nuxalder_run_one_writer(&file[..n], &mut rows, &mut report);
    nuxalder_list(&file[..n], &mut text, &mut r2);
    nuxalder_state(&file[..n], report[0], &mut text, &mut r3);
    nuxalder_merge(&file[..n], &file[..n], &mut text, &mut r4);
    nuxalder_history(&file[..n], &mut rows, &mut r2);
    nuxalder_judge(&rows[..n], &mut order, &mut r3);
    nuxalder_tally(&file[..n], &mut rows, &mut tally, &mut r7);
    nuxalder_average(&tally, 1, &mut r2);
    io::write_all(1, &text[..(r2[1] as usize % 1000)]);
    io::write_all(1, &order[..]);
}
'''
open(dst+'/crates/host/src/main.rt','w').write(t+main)
open(dst+'/crates/host/stdin','wb').write(b'\x01\x00\x00')

import sys,subprocess,re
name=sys.argv[1]; F=sys.argv[2]
subprocess.run(['valgrind','--tool=callgrind','--dump-instr=yes','--callgrind-out-file=/tmp/lp/cg.'+name,'/tmp/lp/d-'+name,F,'2'],capture_output=True)
counts={}; addr=0; base=None
for line in open('/tmp/lp/cg.'+name):
    m=re.match(r'^(0x[0-9a-f]+|\+\d+|\*|-\d+|\+0x[0-9a-f]+) (\S+) (\d+)$',line.strip())
    if line.startswith('calls='): skip=True; continue
    if m:
        a=m.group(1)
        if a.startswith('0x'): addr=int(a,16)
        elif a[0]=='+': addr+=int(a[1:],0)
        elif a[0]=='-': addr-=int(a[1:],0)
        if 'skip' in globals() and skip: skip=False; continue
        counts[addr]=counts.get(addr,0)+int(m.group(3))
od=subprocess.run(['objdump','-d','--no-show-raw-insn','/tmp/lp/d-'+name],capture_output=True,text=True).stdout
out=[]; fn=''
for l in od.split('\n'):
    m=re.match(r'^[0-9a-f]+ <(.*)>:',l)
    if m: fn=m.group(1)
    m=re.match(r'^ +([0-9a-f]+):\t(.*)',l)
    if m :
        a=int(m.group(1),16); out.append((a,m.group(2)))
# addresses are at a load base
import collections
tot=sum(counts.values()); print('total',tot)
off=None
for o in (0,0x108000,0x400000):
    h=sum(counts.get(a+o,0) for a,_ in out)
    if h>1000: off=o; print('offset',hex(o),'in carry_out',h)
n=2*int(sys.argv[3])
th=float(sys.argv[4]) if len(sys.argv)>4 else 0.25
for a,t in out:
    c=counts.get(a+off,0)
    if c>=th*n: print('%6.2f  %x %s'%(c/n,a,t))

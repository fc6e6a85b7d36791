import sys,re,subprocess
cg,exe,fn,div=sys.argv[1:5]; div=float(div)
cnt={}
cur=None
addr=0;line=0
inc=False
skip=False
for l in open(cg):
    l=l.strip()
    if l.startswith('fn='): cur=l
    m=re.match(r'calls=',l)
    if m: skip=True; continue
    m=re.match(r'(0x[0-9a-f]+|\+\d+|-\d+|\*) (\S+) (\d+)$',l)
    if m:
        a=m.group(1)
        if a.startswith('0x'): addr=int(a,16)
        elif a=='*': pass
        else: addr+=int(a)
        if skip: skip=False; continue
        cnt[addr]=cnt.get(addr,0)+int(m.group(3))
out=subprocess.run(['objdump','-d','--no-show-raw-insn',f'--disassemble={fn}',exe],capture_output=True,text=True).stdout
for l in out.split('\n'):
    m=re.match(r'\s*([0-9a-f]+):\s(.*)',l)
    if m:
        a=int(m.group(1),16)
        for off in (0,0x400000,0x108000,0x109000):
            c=cnt.get(a+off)
            if c: break
        if c and c/div>=float(sys.argv[5]): print(f'{c/div:8.3f} {a:x} {m.group(2)}')

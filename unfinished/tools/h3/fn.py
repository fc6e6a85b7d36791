# fn.py PLACES MODPATH(e.g. query/lay) : gives par, need, seq
import re,glob
def load(PL,fn,crate='run'):
    lts=[f for f in glob.glob(PL+'/**/Lts.antt',recursive=True) if '·%s·proofs/proofs/%s/'%(crate,fn) in f][0]
    par={}; need={}
    rec=None; nd=None
    for line in open(lts):
        m=re.match(r' +pub record (\S+) : Type 0 where',line)
        if m and '·own' not in m.group(1): rec=m.group(1)
        m=re.match(r' +pub before : (\S+)$',line)
        if m and rec: par[rec]=m.group(1); rec=None
        m=re.match(r' +Need-(\S+) =$',line)
        if m: nd=m.group(1)
        m=re.match(r' +\(c : ([^)]+)\)',line)
        if m and nd: need[nd]=m.group(1); nd=None
        m=re.match(r' +Need-(\S+) = +\(c : ([^)]+)\)',line)
        if m: need[m.group(1)]=m.group(2); nd=None
    tie=open([f for f in glob.glob(PL+'/**/Tie.antt',recursive=True) if '·%s·proofs/proofs/%s/'%(crate,fn) in f][0]).read()
    a=tie.index('pub spec')
    seq=[x.split('\n')[0] for x in re.findall(r'\(answer : Need-(\S+?)(?: Inv μ)?\) →',tie[a:])]
    if not seq: seq=re.findall(r'Need-(\S+?)\)? →',tie[a:])
    def up(a,b):
        n=0
        while a!=b:
            if a not in par: raise Exception('no way to %s (stuck at %s)'%(b,a))
            a=par[a]; n+=1
        return ' .before'*n
    def chain(nm,names,c='c'):
        out=''; f,fp=c,need[nm]
        for n,p in names:
            out+='    let %s = %s%s in\n'%(n,f,up(fp,p)); f,fp=n,p
        return out
    return par,need,seq,up,chain
def write(path,head,uses,fn,seq,over,crate='run'):
    mod='Rattle·%s·proofs.proofs.%s'%(crate,fn.replace('/','.'))
    out=head+'\n'+''.join('use %s\n'%u for u in uses)+'use %s.Statement.{statement}\nuse %s.Tie as tie\n'%(mod,mod)
    for n in seq:
        b=over.get(n,'search needs')
        arg='c κs' if re.search(r'-requires(-\d+)?$',n) else 'c'
        out+='\n%s : tie.Need-%s\n%s %s =%s\n'%(n,n,n,arg,(' '+b) if '\n' not in b else '\n'+b.rstrip())
    spec=fn.split('/')[-1].replace('_','-')+'-spec'
    one='%s = tie.close (tie.spec %s)'%(spec,' '.join(seq))
    if len(one)>110: one='%s =\n    tie.close\n    (tie.spec\n%s)'%(spec,'\n'.join('    '+x for x in seq))
    out+='\npub %s : {M : Type 1} → statement M\n%s\n'%(spec,one)
    import os
    os.makedirs(os.path.dirname(path),exist_ok=True)
    open(path,'w').write(out)

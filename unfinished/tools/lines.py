import subprocess,sys,re,collections
base,tip=sys.argv[1:3]
out=subprocess.run(['git','diff','--numstat','-M',base,tip],capture_output=True,text=True).stdout
k=collections.OrderedDict()
def kind(p):
    p=re.sub(r'\{[^}]* => ([^}]*)\}',r'\1',p); p=re.sub(r'^.* => ','',p); p=p.replace('//','/')
    if p.startswith('crates/vectors/'): return 'crate vectors'
    if '/must-fail/' in p or p.startswith('tests/wrong_builds/') or p.startswith('tests/differential/wrong/'): return 'must-fail edits and wrong builds'
    m=re.match(r'crates/([^/]+)/(specs|src|proofs)/(.*)',p)
    if m:
        if m[2]=='specs': return 'specs'
        if m[2]=='src': return 'code'
        return 'laws' if '/' not in m[3] else 'other proof files'
    if p.startswith('docs/') or p.endswith('.md'): return 'docs'
    return 'tests, tools, header, examples, bench'
for l in out.splitlines():
    a,d,p=l.split('\t')
    if a=='-': continue
    x=k.setdefault(kind(p),[0,0]); x[0]+=int(a); x[1]+=int(d)
for n,(a,d) in k.items(): print(f'| {n} | {a:,} | {d:,} |')

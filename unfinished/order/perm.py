import sys,re,random,subprocess,shutil,os
src='/work/t/next'
base=open(src+'/crates/steps/src/lib.rt').read()
def perm(name,order,text):
    m=re.search(r'pub struct %s \{\n(.*?)\n\}'%name,text,re.S)
    body=m.group(1)
    fields=[];com=[]
    for l in body.split('\n'):
        if l.strip().startswith('//'): com.append(l)
        else:
            fn=re.match(r'\s*pub (\w+):',l).group(1); fields.append((fn,'\n'.join(com+[l]))); com=[]
    names=[f for f,_ in fields]; d=dict(fields)
    new=[f for f in order if f in d]+[f for f in names if f not in order]
    return text[:m.start(1)]+'\n'.join(d[f] for f in new)+text[m.end(1):]
tries={
 'n0':([],[]),
 'n1':(['place','route'],[]),
 'n2':(['extra','grandparent','place','route','station','action'],[]),
 'n3':(['action','station','place','route','extra'],[]),
 'n4':([],['effect','note','value','what','place','writes','answer']),
 'n5':([],['note','value','place','what','writes','effect','answer']),
 'n6':(['route','station','place','action'],['note','value','place','what','writes','effect','answer']),
}
for n,(a,b) in tries.items():
    if len(sys.argv)>1 and n not in sys.argv[1:]: continue
    w='/work/t/fo5/w'; shutil.rmtree(w,ignore_errors=True); os.makedirs(w); shutil.copytree(src+'/crates',w+'/crates'); shutil.copy(src+'/crates.txt',w)
    t=base
    if a: t=perm('Notes',a,t)
    if b: t=perm('Decision',b,t)
    open(w+'/crates/steps/src/lib.rt','w').write(t)
    subprocess.run(['nice','-n','-3','/work/t/speed/mk.sh',w+'/crates','/work/t/fo5/%s.a'%n],check=True)
    subprocess.run('gcc -O2 -I /work/main/include lt.c %s.a -o lt-%s; gcc -O2 -I /work/main/include /work/t/speed/d.c %s.a -o d-%s'%(n,n,n,n),shell=True,cwd='/work/t/fo5',check=True)
    out=[n]
    for v in ['1','2','3','2q']:
        best=min(float(subprocess.run('nice -n -12 taskset -c 1 ./lt-%s 120 /work/t/files/v%s-4096-{0,1,2,3}'%(n,v),shell=True,executable='/bin/bash',cwd='/work/t/fo5',capture_output=True,text=True).stdout) for _ in range(3))
        out.append('%s=%.0f'%(v,best))
    print(*out,flush=True)

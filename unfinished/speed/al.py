import sys,re
s=open(sys.argv[1]).read(); mode=int(sys.argv[2])
def f(m):
    return m.group(1)+(' align 64 prefix [16 x i8] zeroinitializer {' if mode else ' align 64 {')
s=re.sub(r'(?m)^(define internal [^\n]*@"run::carry_out"[^\n]*?) \{$',f,s)
s=re.sub(r'(?m)^(define internal [^\n]*@"machine::write"[^\n]*?) \{$',lambda m:m.group(1)+' align 64 {',s)
open(sys.argv[3],'w').write(s)

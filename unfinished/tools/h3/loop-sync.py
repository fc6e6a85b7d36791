import re,os,shutil
SRC='/work/t/h3/crates/'
def stub(text,body,void=False):
    head=text[:text.index('\n{')]
    if 'requires' in head:
        head=re.sub(r'requires \{ ⌜ (.*) ⌝ \}',r'requires { ⌜ ⊥ × (\1) ⌝ }',head)
    else:
        head=head.replace('\n    ensures','\n    requires { ⌜ ⊥ ⌝ }\n    ensures')
    return head+'\n{\n'+('' if void else '    '+body+'\n')+'}\n'
q=open(SRC+'run/src/query.rt').read()
types=q[q.index('// The root and the counts after'):q.index('// The depths of a range base are those')]
gh=''.join(l+'\n' for l in q.split('\n') if l.startswith('ghost use'))
LEFT='Left { what: 0, root: 0, used: 0, shown: 0, place: 0, base: 0, frames: 0, set: 0 }'
def fnq(name): return re.search(r'^pub fn %s\(.*?^}'%name,q,re.M|re.S).group(0)
shutil.rmtree('crates/run',ignore_errors=True)
os.makedirs('crates/run/src'); os.makedirs('crates/run/proofs/carry_out')
open('crates/run/src/query.rt','w').write('// stub\n'+gh+'use steps::Notes;\n\n'+types+stub(fnq('turn'),LEFT)+'\n'+stub(fnq('start'),'',True)+'\n'+stub(fnq('help'),'',True)+'\n'+stub(fnq('put_found'),'at'))
l=open(SRC+'run/src/lib.rt').read()
a=l.index("// An action's number in a row."); b=l.index('// All records of a file that is not refused'); c=l.index('// The bytes of a row buffer that Run asks for')
pr=re.search(r'^pub fn put_row\(.*?^}',l,re.M|re.S).group(0)
l=l[:a]+stub(pr,'at')+'\n'+l[b:c].rstrip()+'\n'
for x in ['Action','Report']: l=l.replace('use definitions::%s;\n'%x,'')
open('crates/run/src/lib.rt','w').write(l)
shutil.copytree(SRC+'run/specs','crates/run/specs')
open('crates/run/proofs/Lib.antt','w').write('')
open('crates/run/proofs/carry_out/Proof.antt','w').write('-- x\nuse Nothing.{here}\n')

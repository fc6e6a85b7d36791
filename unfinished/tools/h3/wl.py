import sys; sys.path.insert(0,'/work/t/h3-small')
from fn import load,write
PL=sys.argv[1] if len(sys.argv)>1 else '/work/t/qless-small/target/places'; CR=sys.argv[2] if len(sys.argv)>2 else 'run'; F='list' if CR=='list' else 'run'
OUT='/work/t/qless/crates/list/proofs/'
N='borrow.Author.Needs.{needs}'
par,need,seq,up,chain=load(PL,'plain_report',CR)
over={}
over['report-requires']=chain('report-requires',[('s','Start')])+"    let p = s .pre in\n    (p .0, (p .1 .0, (spare-none _ (p .1 .1 .0), p .1 .1 .1)))"
over['returns']='c%s .report .ensures'%up(need['returns'],'After-report')
write(OUT+'plain_report/Proof.antt','-- `list::plain_report` meets its contract. Assumes nothing.',[N,'Rattle·run.proofs.Ended.{spare-none}'],'plain_report',seq,over,'list')
par,need,seq,up,chain=load(PL,F,CR)
over={}
over['shared-slice-read-if2']=chain('shared-slice-read-if2',[('t','Then1'),('f','After-refusal-of')])+"    omega (arith, f .refusal-of .ensures .1 (t .if1 .taken) .header)"
def req(n,lent,spare,more=[]):
    return chain(n,more+[('t','Then1'),('f','After-refusal-of')])+"    let e = f .refusal-of .ensures in\n    let z = t .if1 .taken in\n    (e .1 z, (%s, (%s, has-text-room _ _ (e .0) z)))"%(lent,spare)
over['plain-report-requires']=req('plain-report-requires','lent-none _ (u .if2 .taken)','λ _ _. u .if2 .taken',[('u','Then2')])
over['report-requires']=req('report-requires','lent-all _ (u .if2 .left)','spare-all _',[('u','Else2')])
over['plain-report-requires-2']=req('plain-report-requires-2','lent-all _ (u .if2 .left)','m .may-ask .ensures (i .if3 .left)',[('i','Else3'),('m','After-may-ask'),('u','Else2')])
def ret(n,after,call):
    return chain(n,[('r',after),('t','Then1'),('f','After-refusal-of'),('s','Start')])+"    let e = f .refusal-of .ensures .0 in\n    let z = t .if1 .taken in\n    let a = s .args .text .now in\n    (listed-report _ a e z (r .%s .ensures .0), listed-buffer _ a e z (r .%s .ensures .1))"%(call,call)
over['returns']=ret('returns','After-plain-report','plain-report')
over['returns-2']=ret('returns-2','After-report','report')
over['returns-3']=ret('returns-3','After-plain-report2','plain-report2')
over['returns-4']=chain('returns-4',[('f','After-refusal-of'),('s','Start')])+"    let e = f .refusal-of .ensures .0 in\n    let a = s .args .text .now in\n    (refused-report _ a e (c .if1 .left), refused-buffer _ a e (c .if1 .left))"
write(OUT+'list/Proof.antt','-- `list::list` meets its contract. Assumes nothing.',['native.Mathlib.Omega.{arith}',N,'Rattle·run.proofs.Ended.{lent-none, lent-all, spare-all}','Rattle·list·proofs.proofs.Cases.{has-text-room, refused-report, refused-buffer, listed-report, listed-buffer}'],'list',seq,over,'list')

import sys; sys.path.insert(0,'/work/t/run-tools')
from fn import load,write
PL='/tmp/lst/target/places'; OUT='/work/t/run/crates/list/proofs/'
N='borrow.Author.Needs.{needs}'
par,need,seq,up,chain=load(PL,'report','list')
over={}
over['carry-out-requires']='let p = c%s .pre in (p .0, (blank, (none-set _, (p .1 .0, p .1 .1 .0))))'%up(need['carry-out-requires'],'Start')
over['returns']=chain('returns',[('y','After-write-tree'),('g','After-carry-out'),('t','Start')])+'''    let p = t .pre in
    let h = g .carry-out .ensures in
    let w = y .write-tree .ensures in
    (ended-report _ _ refl (λ i. omega (arith, p .1 .0 .whole i)) (p .1 .1 .1) h w, ended-text _ _ refl (λ i. omega (arith, p .1 .0 .whole i)) (p .1 .1 .1) h w)'''
write(OUT+'report/Proof.antt','-- `list::report` meets its contract. Assumes nothing.',['mathlib.Core.Path.{refl}','native.Mathlib.Omega.{arith}',N,'Rattle·nodes.proofs.Fresh.{blank}','Rattle·run.proofs.Ended.{none-set}','Rattle·list·proofs.proofs.Cases.{ended-report, ended-text}'],'report',seq,over,'list')
print(seq)
par,need,seq,up,chain=load(PL,'list','list')
over={}
over['shared-slice-read-if2']='let t = c .before in omega (arith, t .before .refusal-of .ensures .1 (t .if1 .taken) .header)'
for nm,th,law,side in [('report-requires','Then2','none','taken'),('report-requires-2','Else2','all','left')]:
    over[nm]=chain(nm,[('u',th),('t','Then1')])+'''    let e = t .before .refusal-of .ensures in
    let z = t .if1 .taken in
    (e .1 z, (lent-%s _ (u .if2 .%s), (spare-%s _ (u .if2 .%s), has-text-room _ _ (e .0) z)))'''%(law,side,law,side)
for nm,r in [('returns','report'),('returns-2','report2')]:
    over[nm]=chain(nm,[('r','After-'+r),('t','Then1'),('s','Start')])+'''    let e = t .before .refusal-of .ensures .0 in
    let z = t .if1 .taken in
    let a = s .args .text .now in
    (listed-report _ a e z (r .%s .ensures .0), listed-buffer _ a e z (r .%s .ensures .1))'''%(r,r)
over['returns-3']=chain('returns-3',[('f','After-refusal-of'),('s','Start')])+'''    let e = f .refusal-of .ensures .0 in
    let a = s .args .text .now in
    (refused-report _ a e (c .if1 .left), refused-buffer _ a e (c .if1 .left))'''
write(OUT+'list/Proof.antt','-- `list::list` meets its contract. Assumes nothing.',['native.Mathlib.Omega.{arith}',N,'Rattle·run.proofs.Ended.{lent-none, lent-all, spare-none, spare-all}','Rattle·list·proofs.proofs.Cases.{has-text-room, refused-report, refused-buffer, listed-report, listed-buffer}'],'list',seq,over,'list')
print(seq)

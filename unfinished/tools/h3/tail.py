import sys; sys.path.insert(0,'/work/t/run-tools')
from fn import load,write
PL='/tmp/tail/target/places'; OUT='/work/t/run/crates/run/proofs/'
N='borrow.Author.Needs.{needs}'
par,need,seq,up,chain=load(PL,'report')
over={}
over['carry-out-requires']='let p = c%s .pre in (p .0, (blank, (none-set _, (p .1 .0, p .1 .1 .0))))'%up(need['carry-out-requires'],'Start')
over['returns']=chain('returns',[('s','After-stored-below'),('b','After-set-below'),('g','After-carry-out'),('t','Start')])+'''    let h = g .carry-out .ensures in
    (ended-report _ _ refl h (b .set-below .ensures) (s .stored-below .ensures), ended-buffer _ _ refl h (t .pre .1 .1 .1))'''
write(OUT+'report/Proof.antt','-- `run::report` meets its contract. Assumes nothing.',['mathlib.Core.Path.{refl}',N,'Rattle·nodes.proofs.Fresh.{blank}','Rattle·run·proofs.proofs.Ended.{none-set, ended-report, ended-buffer}'],'report',seq,over)
par,need,seq,up,chain=load(PL,'run')
over={}
over['shared-slice-read-if2']='let t = c .before in omega (arith, t .before .refusal-of .ensures .1 (t .if1 .taken) .header)'
for nm,th,law,side in [('report-requires','Then2','none','taken'),('report-requires-2','Else2','all','left')]:
    over[nm]=chain(nm,[('u',th),('t','Then1')])+'''    let e = t .before .refusal-of .ensures in
    let z = t .if1 .taken in
    (e .1 z, (lent-%s _ (u .if2 .%s), (spare-%s _ (u .if2 .%s), room-for _ _ (sym (e .0) ∙ z))))'''%(law,side,law,side)
for nm,r in [('returns','report'),('returns-2','report2')]:
    over[nm]=chain(nm,[('r','After-'+r),('t','Then1'),('s','Start')])+'''    let e = t .before .refusal-of .ensures .0 in
    let z = t .if1 .taken in
    let a = s .args .rows .now in
    (passed-report _ a e z (r .%s .ensures .0), passed-buffer _ a e z (r .%s .ensures .1))'''%(r,r)
over['returns-3']=chain('returns-3',[('f','After-refusal-of'),('s','Start')])+'''    let e = f .refusal-of .ensures .0 in
    let a = s .args .rows .now in
    (refused-report _ a e (c .if1 .left), refused-buffer _ a e (c .if1 .left))'''
write(OUT+'run/Proof.antt','-- `run::run` meets its contract. Assumes nothing.',['mathlib.Core.Path.{sym, _∙_}','native.Mathlib.Omega.{arith}',N,'Rattle·run·proofs.proofs.Ended.{room-for, lent-none, lent-all, spare-none, spare-all, refused-report, refused-buffer, passed-report, passed-buffer}'],'run',seq,over)

# w.py PLACES OUT: the proofs of writer::run and writer::is_of_3
import sys; sys.path.insert(0,'/work/t/run-tools')
from fn import load,write
PL,OUT=sys.argv[1:3]
N='borrow.Author.Needs.{needs}'
par,need,seq,up,chain=load(PL,'is_of_3','writer'); print(seq)
over={'returns':'three-short (c%s .args .s .now) (c .if1 .taken)'%up(need['returns'],'Start'),'returns-2':'three-long (c%s .args .s .now) (omega (arith, c%s .if1 .left)) refl'%(up(need['returns-2'],'Start'),up(need['returns-2'],'Else1'))}
write(OUT+'is_of_3/Proof.antt','-- `writer::is_of_3` meets its contract. Assumes nothing.',['mathlib.Core.Path.{refl}','native.Mathlib.Omega.{arith}',N,'Rattle·writer·proofs.proofs.Cases.{three-short, three-long}'],'is_of_3',seq,over,'writer')
par,need,seq,up,chain=load(PL,'run','writer'); print(seq)
over={}
Z='t .before .refusal-of .ensures .1 (t .if2 .taken)'
over['version-of-requires']=chain('version-of-requires',[('t','Then2')])+'    '+Z+' .header'
over['count-of-requires']=chain('count-of-requires',[('t','Then2')])+'    '+Z+' .header'
over['first-barred-requires']=chain('first-barred-requires',[('n','After-count-of'),('v','After-version-of'),('t','Then2')])+'    scanned _ (v .version-of .ensures) (n .count-of .ensures) ('+Z+')'
over['start-of-requires']=chain('start-of-requires',[('f','After-first-barred'),('n','After-count-of'),('t','Then2')])+'    omega (arith, f .first-barred .ensures .low, n .count-of .ensures, '+Z+' .few)'
over['before-requires']=chain('before-requires',[('o','After-start-of'),('f','After-first-barred'),('n','After-count-of'),('v','After-version-of'),('t','Then2'),('s','Start')])+'''    (
      sym (t .before .refusal-of .ensures .0) ∙ t .if2 .taken,
      (omega (arith, f .first-barred .ensures .low, n .count-of .ensures), started (s .args .schedule .now) _ (v .version-of .ensures) (o .start-of .ensures)),
    )'''
OFF="    let off = sym (h .is-of-3 .ensures) ∙ g .if1 .left in\n"
over['returns']=chain('returns',[('g','Then1'),('h','After-is-of-3'),('s','Start')])+'''    let on = sym (h .is-of-3 .ensures) ∙ g .if1 .taken in
    (three-report (s .args .schedule .now) on _, three-buffer (s .args .schedule .now) on _)'''
over['returns-2']=chain('returns-2',[('e','After-stopped'),('b','After-before2'),('u','Then3'),('f','After-first-barred'),('n','After-count-of'),('t','Then2'),('g','Else1'),('h','After-is-of-3'),('s','Start')])+OFF+'''    let z = sym (t .before .refusal-of .ensures .0) ∙ t .if2 .taken in
    let k = cut-of _ (n .count-of .ensures) (f .first-barred .ensures) in
    let file = s .args .schedule .now in
    let rows = s .args .rows .now in
    let l : f .first-barred .result < countOf file = omega (arith, u .if3 .taken, n .count-of .ensures) in
    (cut-report file off k (length rows) z l (b .before2 .ensures .0) (e .stopped .ensures), cut-buffer file off k rows z l (b .before2 .ensures .1))'''
over['returns-3']=chain('returns-3',[('r','After-run'),('j','Joined2'),('y','After-refusal-of'),('g','Else1'),('h','After-is-of-3'),('s','Start')])+OFF+'''    let e = y .refusal-of .ensures .0 in
    let file = s .args .schedule .now in
    let rows = s .args .rows .now in
    ⊎-elim
    (λ w.
    let k = cut-of file (w .2 .ensures) (w .3 .ensures) in
    let l : countOf file ≤ w .3 .result = omega (arith, w .4 .left, w .2 .ensures) in
    (r .run .ensures .0 ∙ whole-report file off k (length rows) l, r .run .ensures .1 ∙ whole-buffer file off k rows l))
    (λ w. (r .run .ensures .0 ∙ refused-report file off (length rows) (λ z. w .left (e ∙ z)), r .run .ensures .1 ∙ refused-buffer file off rows (λ z. w .left (e ∙ z))))
    (j .if2 .came)'''
write(OUT+'run/Proof.antt','-- `writer::run` meets its contract. Assumes nothing.',['mathlib.Core.Path.{sym, _∙_}','mathlib.Core.Logic.{⊎-elim}','native.Mathlib.Omega.{arith}','lib.ListN.{length}',N,'Prim.Native.Nat.{_<_, _≤_}','Rattle·definitions.specs.Schedule.{countOf}','Rattle·writer·proofs.proofs.Scan.{scanned, started, cut-of}','Rattle·writer·proofs.proofs.Cases.{three-report, three-buffer, refused-report, refused-buffer, whole-report, whole-buffer, cut-report, cut-buffer}'],'run',seq,over,'writer')

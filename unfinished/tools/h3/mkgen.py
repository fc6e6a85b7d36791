# gen2.py -> gen3.py for the loop over the stop
s=open('/work/t/run-tools/gen2.py').read()
def r(a,b,n=1):
    global s
    assert s.count(a)>=1,a
    s=s.replace(a,b)
r("root₀ used₀ shown₀ finished₀","root₀ used₀ shown₀ on₀ finished₀")
r("((length frames ≡ 4)\n    × Stands (table cells sets) depths (stores flags results) (threadsOf","((length frames ≡ 5)\n    × Stands (table cells sets) depths (stores flags results) (stop (stopOf schedule) (getD frames 4 0)) (threadsOf")
r("use lib.ListN.{length}\nuse mathlib.Core.Bool.{false}\n","use lib.ListN.{length, getD}\nuse mathlib.Core.Bool.{false}\n")
r("use Rattle·definitions.specs.Bench.{sight}\nuse Rattle·definitions.specs.Places.{placeOf}\nuse Rattle·definitions.specs.Steps.{step}\nuse Rattle·definitions.specs.Versions.{version, width}\n","use Rattle·definitions.specs.Bench.{stop, sight}\nuse Rattle·definitions.specs.Versions.{version, stopOf, width}\n")
r("use Rattle·steps.specs.Decision.{Decides}\n","")
r("use Rattle·run·proofs.proofs.Turn.{Asking, seen, stand}\n","use Rattle·run·proofs.proofs.Decided.{decided-at, decided-count}\nuse Rattle·run·proofs.proofs.Changed.{Begun, begun-at, begun-off, begun-on, Recounts, recount-none, recount-more, recount-less}\nuse Rattle·run·proofs.proofs.Turn.{Asking, seen, stand, awake}\n")
r("place = 0; route = 0; base = 0","place = 0; route = 0; read = 0; base = 0")
# ifs: old number -> new number
for a,b in ((14,18),(13,17),(12,16),(11,15),(10,12),(9,11),(8,10),(7,9)):
    for w in ('Then','Else'):
        s=s.replace("'%s%d'"%(w,a),"'%s%d'"%(w,b))
    s=s.replace('.if%d '%a,'.if%d '%b)
    s=s.replace('tie.Else%d '%a,'tie.Else%d '%b)
# few
r("few-frames (asking a) (m .record .given .0 .0 / 16 % 4)","few-frames (asking a) (m .record .given .0 .0 / 16 % 4) (omega arith)")
r("few-frames (asking (c%s)) _)","few-frames (asking (c%s)) _ (omega arith))")
r("(few-frames (asking a) _, (omega","(few-frames (asking a) _ (omega arith), (omega")
r("none-yet _ _ (s","none-yet _ _ _ (s")
# steps
a=s.index("-- a step below 60\npub low"); b=s.index("open(OUT+'/Proof/Loop.antt'")
low='''-- a step below 60
pub low : (c : tie.Joined4 Inv-loop μ-loop) →
\'\'\'+chain('c','Joined4',[('m','After-record'),('l','At-loop')])+\'\'\'    seen (l .loop .threads) (m .record .given .0 .0) past .place < 60
low c = ⊎-elim (λ w. omega (arith, w .0 .taken)) (⊎-elim (λ w. omega (arith, w .1 .taken)) (⊎-elim (λ w. omega (arith, w .2 .taken)) (⊎-elim (λ w. omega (arith, w .3 .taken)) (λ w. omega (arith, w .4 .taken))))) (c .if4 .came)

-- the parts of the places decide alike: TODO
\'\'\'
'''
s=s[:a]+low+s[b:]
r("STEP=[('u','After-used-then')","STEP=[('y','Joined13'),('u','After-used-then')")
r('ON="(asking a) (j .before .match3 .keys1) (j .if4 .d) (low j) (decided j)"','ON="(asking a) (j .before .match3 .keys1) (j .if4 .d) (low j) (begun j .decided)"')
r('(u .used-then .ensures)"%GIVEN','(u .used-then .ensures) (begun j .rereads) (recounts y)"%GIVEN')
r('SET="length-set (l .loop .threads) _ _ ∙ asking a .four"\nSETF="length-set (l .loop .frames) _ _ ∙ asking a .each"','SETL="length-set (l .loop .threads) _ _ ∙ asking a .four"\nSETFL="length-set (l .loop .frames) _ _ ∙ asking a .each"\nSET="length-set (j .if4 .threads) _ _ ∙ (begun j .rereads .size ∙ asking a .four)"\nSETF="length-set (y .if13 .frames) _ _ ∙ (recounts y .size ∙ asking a .each)"\nEACH="recounts y .size ∙ asking a .each"')
open('/work/t/h3-small/gen3.py','w').write(s)
s=open('/work/t/h3-small/gen3.py').read()
for n in ('3','4','6','8'):
    i=s.index("again('loop-again-%s',R"%n); j=s.index('\n',i)
    s=s[:i]+s[i:j].replace("'asking a .each'","EACH")+s[j:]
i=s.index("again('loop-again-9',F"); j=s.index('\n',i); s=s[:i]+s[i:j].replace("'asking a .each'","EACH")+s[j:]
for n in ("11',R","10',F","',Q","-2',Q"):
    k="again('loop-again"+("-" if n[0]=='1' else "")+n
    i=s.index(k); j=s.index('\n',i)
    s=s[:i]+s[i:j].replace(",SET,",",SETL,").replace(",SETF,",",SETFL,")+s[j:]
r("TWICE='''    let threads = l .loop .threads in\n","TWICE='''    let threads = %%s in\n    let four = %%s in\n")
r("(omega (arith, asking a .four)) in\n'''","(omega (arith, four)) in\n'''")
r("(length-set threads (x / 16 % 4) first ∙ asking a .four)'","(length-set threads (x / 16 % 4) first ∙ four)'")
r("TWICE%'j .if4 .d .place'","TWICE%('j .if4 .threads','begun j .rereads .size ∙ asking a .four','j .if4 .d .place')")
r("TWICE%'q .turn .result .place'","TWICE%('l .loop .threads','asking a .four','q .turn .result .place')")
# the count
r("p=need['add-frames']\nput(F,'add-frames',","p=need['add-frames-2']\nput(F,'add-frames-2',")
r("less('loop-less-5',F); p=need['loop-again-5']","put(F,'add-frames',chain('c',need['add-frames'],[('a','After-ask2')])+\"    omega (arith, count-few (asking a))\")\nput(F,'sub-frames',chain('c',need['sub-frames'],[('a','After-ask2')])+\"    omega (arith, count-some (asking a) (c .if14 .taken))\")\nless('loop-less-5',F); p=need['loop-again-5']")
for h in ("Loop.{Inv-loop, μ-loop, past, few, joined, asking, low, decided}","Loop.{Inv-loop, μ-loop, few, joined, asking, sizes, low, decided}"):
    r(h,h.replace("decided}","begun, recounts}"))
r("asking, asking-whole, low, decided}","asking, asking-whole, low, begun}")
r("opened-noted, few as few-frames, opens-few,","opened-noted, few as few-frames, count-few, count-some, opens-few,")
open('/work/t/h3-small/gen3.py','w').write(s)
s=open('/work/t/h3-small/gen3.py').read()
# ways into Joined4 (numbers of the elements of `came`): see the generated Lts.antt, record Joined4·own
W=dict(find=(0,1,5,6,7),   # if4, if5, find, d, threads
       examine=(1,8,9,10), count=(2,6,7,8), swap=(3,10,11,12), join=(4,11,12,13))
import json,os
if os.path.exists('/work/t/h3-small/ways.json'): W.update({k:tuple(v) for k,v in json.load(open('/work/t/h3-small/ways.json')).items()})
SIGHT="(sight (table (l .loop .cells) (l .loop .sets)) (l .loop .root) (l .loop .used) (stores (l .loop .flags) (l .loop .results)) (l .loop .shown) (stop (stopOf (s .args .schedule .now)) (getD (l .loop .frames) 4 0)))"
def at(k,facts):
    n,e,d,t=W[k]
    return "(λ w. begun-at _ _ _ (rw (w .%d, ← o .version-of .ensures) (decided-at _ _ (λ e. omega (arith, %s)) (λ e. omega (arith, %s)) (w .%d .ensures))) (w .%d))"%(d,facts,facts,e,t)
f=W['find']; c=W['count']
FIND="(λ w. ⊎-elim (λ v. rw (← o .version-of .ensures) (begun-on _ _ _ _ _ _ _ _ _ _ (awake (asking a) (c .before .match3 .keys1)) (w .%d .taken) (rw (w .%d, w .%d) (w .%d .ensures)) (v .0 .taken) (omega (arith, asking a .four)) (v .2 .ensures) (w .%d ∙ v .4)))\n    (λ v. rw (← o .version-of .ensures) (begun-off _ _ _ _ _ _ _ _ _ _ (awake (asking a) (c .before .match3 .keys1)) (w .%d .taken) (rw (w .%d, w .%d) (w .%d .ensures)) (v .0 .left) (w .%d ∙ v .1))) (w .%d .came))"%(f[0],f[3],f[4],f[2],f[4],f[0],f[3],f[4],f[2],f[4],f[1])
COUNT="(λ w. begun-at _ _ _ (rw (w .%d) (decided-count _ _ (omega (arith, w .0 .left, w .1 .left)) (w .%d .taken) (w .%d .ensures))) (w .%d))"%(c[2],c[0],c[1],c[3])
BEG="""-- the parts of the places decide alike
pub begun : (c : tie.Joined4 Inv-loop μ-loop) →
'''+chain('c','Joined4',[('m','After-record'),('l','At-loop'),('s','Start')])+'''    Begun %s (m .record .given .0 .0 / 16 %% 4) past (l .loop .threads) (c .if4 .threads) (c .if4 .d)
begun c =
'''+chain('c','Joined4',[('a','After-ask2'),('l','At-loop'),('o','After-version-of')])+'''    ⊎-elim
    %s
    (⊎-elim %s
    (⊎-elim %s
    (⊎-elim %s
    %s)))
    (c .if4 .came)

-- the count after it
pub recounts : (c : tie.Joined13 Inv-loop μ-loop) →
'''+chain('c','Joined13',[('m','After-record'),('l','At-loop')])+'''    Recounts (seen (l .loop .threads) (m .record .given .0 .0) past .place) (l .loop .frames) (c .if13 .frames)
recounts c =
'''+chain('c','Joined13',[('a','After-ask2')])+'''    ⊎-elim (λ w. rw (w .1) (recount-more _ _ (asking a .each) (w .0 .taken)))
    (⊎-elim (λ w. rw (w .2) (recount-less _ _ (asking a .each) (w .1 .taken)))
    (λ w. rw (w .2) (recount-none _ _ (w .0 .left) (w .1 .left))))
    (c .if13 .came)
"""%(SIGHT,FIND,at('examine','w .1 .taken'),COUNT,at('swap','w .2 .left'),at('join','w .3 .left'))
r("-- the parts of the places decide alike: TODO\n",BEG)
r("use Rattle·run·proofs.proofs.Turn.{seen, placed, nothing-noted,","use Rattle·run·proofs.proofs.Turn.{seen, placed, nothing-noted,")
open('/work/t/h3-small/gen3.py','w').write(s)
s=open('/work/t/h3-small/gen3.py').read()
r("FIELDS=['depths'","""# ---------- what the parts ask
put(R,'find-requires',chain('c',need['find-requires'],[('k','Joined5'),('t','Then4'),('a','After-ask2'),('l','At-loop')])+"    ⊎-elim (λ v. omega (arith, reread-place _ _ past (l .loop .threads) (omega (arith, asking a .four)) (v .4), t .if4 .taken)) (λ v. rw (v .1) (t .if4 .taken)) (k .if5 .came)")
put(R,'examine-requires',chain('c',need['examine-requires'],[('t','Then6')])+"    t .if6 .taken")
put(R,'count-requires',chain('c',need['count-requires'],[('t','Then7'),('g','Else6'),('h','Else4')])+"    (omega (arith, h .if4 .left, g .if6 .left), t .if7 .taken)")
FIELDS=['depths'""")
r("use Rattle·run·proofs.proofs.Threads.{kept-deep}\n","use mathlib.Core.Logic.{⊎-elim}\nuse Rattle·run·proofs.proofs.Threads.{kept-deep}\nuse Rattle·run·proofs.proofs.Changed.{reread-place}\n")
open('/work/t/h3-small/gen3.py','w').write(s)
s=open('/work/t/h3-small/gen3.py').read()
r("use Prim.Native.Nat.{suc, _+_, _*_, _<_, _≤_, _-_}","use Prim.Native.Nat.{suc, _+_, _*_, _/_, _%_, _<_, _≤_, _-_}")
open('/work/t/h3-small/gen3.py','w').write(s)

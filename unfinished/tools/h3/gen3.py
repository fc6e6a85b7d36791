import re,sys,os
ROOT=sys.argv[1]        # clone that gets the proof
PL=sys.argv[2]          # generated places
STUB=len(sys.argv)>3
import glob
lts=[f for f in glob.glob(PL+'/**/Lts.antt',recursive=True) if '·run·proofs/proofs/carry_out/' in f][0]
par={}; need={}; order=[]
rec=None; nd=None
for line in open(lts):
    m=re.match(r' +pub record (\S+) : Type 0 where',line)
    if m and '·own' not in m.group(1): rec=m.group(1)
    m=re.match(r' +pub before : (\S+)$',line)
    if m and rec: par[rec]=m.group(1); rec=None
    m=re.match(r' +Need-(\S+) =$',line)
    if m: nd=m.group(1)
    m=re.match(r' +\(c : ([^)]+)\)',line)
    if m and nd: need[nd]=m.group(1); order.append(nd); nd=None
    m=re.match(r' +Need-(\S+) = +\(c : ([^)]+)\)',line)
    if m: need[m.group(1)]=m.group(2); order.append(m.group(1)); nd=None
def up(a,b):
    n=0
    while a!=b:
        if a not in par: raise Exception('no way to %s (stuck at %s)'%(b,a))
        a=par[a]; n+=1
    return ' .before'*n
OUT=ROOT+'/crates/run/proofs/carry_out'
os.makedirs(OUT+'/Proof',exist_ok=True)
M='Rattle·run·proofs.proofs.carry_out'
done={}; files={}
def put(file,name,body,arg=None):
    assert name in need,name
    if arg is None:
        arg='c κs' if re.search(r'-requires(-\d+)?$',name) else 'c'
    files.setdefault(file,[]).append('pub %s : tie.Need-%s Inv-loop μ-loop\n%s %s =%s\n'%(name,name,name,arg,(' '+body) if '\n' not in body else '\n'+body.rstrip()))
    assert name not in done,name
    done[name]=file
def sig(l,s):
    return "(table (%s .loop .cells) (%s .loop .sets)) (%s .loop .depths) (stores (%s .loop .flags) (%s .loop .results)) (%s .loop .threads) (%s .loop .frames) (heldIn (%s .loop .stacks) (%s .loop .backups) (%s .loop .notes) (%s .loop .words)) (%s .loop .root) (%s .loop .used) (%s .loop .shown) (%s .loop .finished) (%s .loop .at) (%s .args .rows .now) (%s .loop .rows)"%((l,)*16+(s,l))
def chain(c,cp,names):
    out=''; f,fp=c,cp
    for n,p in names:
        w=up(fp,p)
        if len(w)>8*18:
            out+='    let %s%s = %s%s in\n'%(n,n,f,w[:8*16]); f=n+n; w=w[8*16:]
        out+='    let %s = %s%s in\n'%(n,f,w); f,fp=n,p
    return out
VARS='cells₀ sets₀ depths₀ flags₀ results₀ stacks₀ backups₀ notes₀ words₀ schedule rows₀ v idle threads₀ frames₀ root₀ used₀ shown₀ on₀ finished₀ at₀ from₀ k₀ cells sets depths flags results stacks backups notes words rows threads frames root used shown finished at from k'
loop='''-- The loop of `run::carry_out`: its invariant and measure, the record that it is at, what that record asks, and the memory for queries where it
-- is lent. Assumes nothing.
use Prim.Native.Nat.{suc, _+_, _*_, _/_, _%_, _<_, _≤_, _-_}
use mathlib.Core.Path.{_≡_, _∙_}
use mathlib.Core.Logic.{⊎-elim}
use native.Mathlib.Omega.{arith}
use lib.Dec.{eqb}
use lib.ListN.{length, getD}
use mathlib.Core.Bool.{false}
use Rattle·nodes.specs.Cells.{table}
use Rattle·nodes.specs.Stores.{stores}
use Rattle·steps.specs.declared.Notes.{Notes}
use Rattle·steps.specs.declared.Decision.{Decision}
use Rattle·steps.specs.Decision.{Decides, finding}
use Rattle·definitions.specs.declared.Action.the-variants.{Lookup}
use Rattle·definitions.specs.declared.Link.the-variants.{Nil}
use Rattle·definitions.specs.Bench.{stop, sight}
use Rattle·definitions.specs.Versions.{version, stopOf, width}
use Rattle·definitions.specs.Schedule.{countOf}
use Rattle·definitions.specs.Run.{after}
use Rattle·run·specs.specs.Standing.{Sizes, Stands}
use Rattle·run·proofs.proofs.Reading.{before-end, inside, Read, read-plain, read-deep, read-query, deep-reads, deep-refused}
use Rattle·run·proofs.proofs.Threads.{threadsOf, heldIn, Kept, kept-sizes}
use Rattle·run·proofs.proofs.Decided.{decided-at, decided-count}
use Rattle·run·proofs.proofs.Changed.{Begun, begun-at, begun-off, begun-on, Recounts, recount-none, recount-more, recount-less}
use Rattle·run·proofs.proofs.Turn.{Asking, seen, stand, awake}
use Rattle·run·proofs.proofs.carry_out.Tie as tie

abbrev pub Inv-loop : tie.InvT-loop
Inv-loop @V =
    (k ≤ countOf schedule) × ((from ≡ 3 + width schedule * k) × (Kept depths₀ results₀ stacks₀ backups₀ notes₀ words₀ depths results stacks backups notes words
    × ((length threads ≡ 4) × ((length frames ≡ 5) × Stands (table cells sets) depths (stores flags results) (stop (stopOf schedule) (getD frames 4 0))
    (threadsOf threads frames (heldIn stacks backups notes words)) (stand root used shown 0 k finished at) rows₀ rows (after schedule k)))))

abbrev pub μ-loop : tie.MeasureT-loop
μ-loop @V =
    length schedule - from

-- what the code would read past the thread table's end
abbrev pub past : Notes
past = record { action = Lookup; station = 0; extra = 0; place = 0; route = 0; read = 0; base = 0; parent = 0; left = false; found = 0; neighbour = 0; main = 0; owner = false; grandparent = Nil; other = 0 }

'''.replace('@V',VARS)
loop+='''-- a record is left
pub few : (i : tie.In-loop Inv-loop μ-loop) → let l = i .before in let s = l%s in suc (l .loop .k) ≤ countOf (s .args .schedule .now)
few i =
    let l = i .before in
    let s = l%s in
    before-end (s .args .schedule .now) (s .pre .0) (l .loop .k) (omega (arith, i .loop-test .taken, l .loop .inv .1 .0))

'''%((up('At-loop','Start'),)*2)
ARGS='(o .version-of .ensures) (r .read .ensures) (m .record .given .1)'
loop+='''-- a record has been read: what it has, where the next one starts, what it asks
pub joined : (j : tie.Joined1 Inv-loop μ-loop) →
'''+chain('j','Joined1',[('m','After-record'),('l','At-loop'),('s','Start')])+'''    Read (s .args .schedule .now) (l .loop .k) (m .record .given .0 .0) (m .record .given .0 .1 .0) (j .if1 .extra) (j .if1 .first) (j .if1 .after) (seen (l .loop .threads) (m .record .given .0 .0) past .place)
joined j =
'''+chain('j','Joined1',[('m','After-record'),('r','After-read'),('i','In-loop'),('l','At-loop'),('o','After-version-of'),('s','Start')])+'''    let file = s .args .schedule .now in
    let h = inside file (s .pre .0) (l .loop .k) (few i) in
    let at = l .loop .inv .1 .0 in
    ⊎-elim
    (λ w. read-query file (l .loop .k) (l .loop .from) _ h at @A (w .1 .ensures) (w .3 .given .1) _ (w .0 .taken) (w .5 .ensures) (w .8) (w .9) (w .7 .taken) (w .10))
    (⊎-elim
    (λ w. read-deep file (l .loop .k) (l .loop .from) _ h at @A (w .1 .ensures) (w .3 .given .1) _ (w .0 .taken) (w .5 .ensures) (w .8) (w .9) (omega (arith, w .6 .left)) (w .7 .left) (w .10))
    (λ w. read-plain file (l .loop .k) (l .loop .from) _ h at @A _ (w .0 .left) (w .1) (w .2) (w .3)))
    (j .if1 .came)

'''.replace('@A',ARGS)
loop+='''-- and asks something
pub asking : (c : tie.After-ask2 Inv-loop μ-loop) →
'''+chain('c','After-ask2',[('m','After-record'),('l','At-loop'),('s','Start')])+'''    Asking (s .args .schedule .now) (l .loop .k) (m .record .given .0 .0) (m .record .given .0 .1 .0) (c .before .if1 .extra) '''+sig('l','s')+''' (c .ask2 .result) past
asking c =
'''+chain('c','After-ask2',[('l','At-loop')])+'''    record {
      four = l .loop .inv .1 .1 .1 .0;
      each = l .loop .inv .1 .1 .1 .1 .0;
      reads = joined (c .before) .0;
      stands = l .loop .inv .1 .1 .1 .1 .1;
      asks = c .ask2 .ensures ∙ joined (c .before) .1 .1;
    }

-- the same where it is read whole and refused
pub asking-whole : (c : tie.Then2 Inv-loop μ-loop) →
'''+chain('c','Then2',[('a','After-ask'),('w','After-wide'),('m','After-record'),('l','At-loop'),('s','Start')])+'''    Asking (s .args .schedule .now) (l .loop .k) (m .record .given .0 .0) (m .record .given .0 .1 .0) (w .wide .given .0 .1 .1 .0) '''+sig('l','s')+''' (a .ask .result) past
asking-whole c =
'''+chain('c','Then2',[('a','After-ask'),('w','After-wide'),('g','After-read2'),('t','Then1'),('m','After-record'),('r','After-read'),('i','In-loop'),('l','At-loop'),('o','After-version-of'),('s','Start')])+'''    let file = s .args .schedule .now in
    let h = inside file (s .pre .0) (l .loop .k) (few i) in
    let at = l .loop .inv .1 .0 in
    record {
      four = l .loop .inv .1 .1 .1 .0;
      each = l .loop .inv .1 .1 .1 .1 .0;
      reads = deep-reads file (l .loop .k) (l .loop .from) _ h at @A (g .read2 .ensures) (w .wide .given .1);
      stands = l .loop .inv .1 .1 .1 .1 .1;
      asks = deep-refused file (l .loop .k) (l .loop .from) _ h at @A (g .read2 .ensures) (w .wide .given .1) _ (t .if1 .taken) (a .ask .ensures) (c .if2 .taken);
    }

-- the memory for queries, where it is lent
pub sizes : (c : tie.After-ask2 Inv-loop μ-loop) →
'''.replace('@A',ARGS)+chain('c','After-ask2',[('l','At-loop'),('s','Start')])+'''    (version (s .args .schedule .now) ≡ 1 → ⊥) → Sizes 256 1 (l .loop .results) (l .loop .stacks) (l .loop .backups) (l .loop .notes) (l .loop .words)
sizes c v =
'''+chain('c','After-ask2',[('l','At-loop'),('s','Start')])+'''    kept-sizes (l .loop .inv .1 .1 .0) (s .args .schedule .now) (s .pre .1 .1 .1 .1) v

-- a step below 60
pub low : (c : tie.Joined4 Inv-loop μ-loop) →
'''+chain('c','Joined4',[('m','After-record'),('l','At-loop')])+'''    seen (l .loop .threads) (m .record .given .0 .0) past .place < 60
low c = ⊎-elim (λ w. omega (arith, w .0 .taken))
    (⊎-elim (λ w. omega (arith, w .1 .taken))
    (⊎-elim (λ w. omega (arith, w .2 .taken)) (⊎-elim (λ w. omega (arith, w .3 .taken)) (λ w. omega (arith, w .4 .taken)))))
    (c .if4 .came)

-- 1 and 2 decide once the routes read are noted
begun-find : (c : tie.Joined5 Inv-loop μ-loop) (d : Decision) →
'''+chain('c','Joined5',[('m','After-record'),('l','At-loop'),('o','After-version-of'),('s','Start')])+'''    Decides (seen (c .if5 .threads) (m .record .given .0 .0) past) d
    (finding (seen (c .if5 .threads) (m .record .given .0 .0) past .place) (eqb (o .version-of .result) 3) (table (l .loop .cells) (l .loop .sets)) (l .loop .root))
    → Begun (sight (table (l .loop .cells) (l .loop .sets)) (l .loop .root) (l .loop .used) (stores (l .loop .flags) (l .loop .results)) (l .loop .shown)
    (stop (stopOf (s .args .schedule .now)) (getD (l .loop .frames) 4 0))) (m .record .given .0 .0 / 16 % 4) past (l .loop .threads) (c .if5 .threads) d
begun-find c d i =
'''+chain('c','Joined5',[('t','Then4'),('a','After-ask2'),('l','At-loop'),('o','After-version-of')])+'''    let up = awake (asking a) (t .before .match3 .keys1) in
    rw (← o .version-of .ensures)
    (⊎-elim
    (λ v. begun-on _ _ _ _ _ _ _ _ _ _ up (t .if4 .taken) i (v .0 .taken) (omega (arith, asking a .four)) (v .2 .ensures) (v .4))
    (λ v. begun-off _ _ _ _ _ _ _ _ _ _ up (t .if4 .taken) i (v .0 .left) (v .1))
    (c .if5 .came))

-- the parts of the places decide alike
pub begun : (c : tie.Joined4 Inv-loop μ-loop) →
'''+chain('c','Joined4',[('m','After-record'),('l','At-loop'),('s','Start')])+'''    Begun (sight (table (l .loop .cells) (l .loop .sets)) (l .loop .root) (l .loop .used) (stores (l .loop .flags) (l .loop .results)) (l .loop .shown)
    (stop (stopOf (s .args .schedule .now)) (getD (l .loop .frames) 4 0))) (m .record .given .0 .0 / 16 % 4) past (l .loop .threads) (c .if4 .threads) (c .if4 .d)
begun c =
'''+chain('c','Joined4',[('a','After-ask2'),('l','At-loop'),('o','After-version-of')])+'''    ⊎-elim
    (λ w. rw (w .7, w .6) (begun-find (record { before = record { before = c .before; if4 = w .0 }; if5 = w .1 }) (w .5 .result) (w .5 .ensures)))
    (⊎-elim (λ w. begun-at _ _ _ (rw (w .9, ← o .version-of .ensures) (decided-at _ _ (λ e. omega (arith, w .1 .taken)) (λ e. omega (arith, w .1 .taken)) (w .7 .ensures))) (w .8))
    (⊎-elim (λ w. begun-at _ _ _ (rw (w .8) (decided-count _ _ (omega (arith, w .0 .left, w .1 .left)) (w .2 .taken) (w .6 .ensures))) (w .7))
    (⊎-elim (λ w. begun-at _ _ _ (rw (w .11, ← o .version-of .ensures) (decided-at _ _ (λ e. omega (arith, w .2 .left)) (λ e. omega (arith, w .2 .left)) (w .9 .ensures))) (w .10))
    (λ w. begun-at _ _ _ (rw (w .12, ← o .version-of .ensures) (decided-at _ _ (λ e. omega (arith, w .3 .left)) (λ e. omega (arith, w .3 .left)) (w .10 .ensures))) (w .11)))))
    (c .if4 .came)

-- the count after it
pub recounts : (c : tie.Joined13 Inv-loop μ-loop) →
'''+chain('c','Joined13',[('m','After-record'),('l','At-loop')])+'''    Recounts (seen (l .loop .threads) (m .record .given .0 .0) past .place) (l .loop .frames) (c .if13 .frames)
recounts c =
'''+chain('c','Joined13',[('a','After-ask2')])+'''    ⊎-elim (λ w. rw (w .1) (recount-more _ _ (asking a .each) (w .0 .taken)))
    (⊎-elim (λ w. rw (w .2) (recount-less _ _ (asking a .each) (w .1 .taken)))
    (λ w. rw (w .2) (recount-none _ _ (w .0 .left) (w .1 .left))))
    (c .if13 .came)
'''
open(OUT+'/Proof/Loop.antt','w').write(loop)
R='Round'; F='Frames'; Q='Queries'; E='Ends'; L='Lengths'
def less(name,file):
    p=need[name]
    put(file,name,chain('c',p,[('a','After-ask2'),('i','In-loop'),('s','Start')])+'''    omega (arith, i .loop-test .taken, i .before .loop .inv .1 .0, joined (a .before) .1 .0, onwards (s .args .schedule .now) (i .before .loop .k))''')
def again(name,file,names,kept,four,each,last,pre=''):
    p=need[name]
    if any(x[0]=='e' for x in names): pre=WROTE+pre
    put(file,name,chain('c',p,names)+pre+'''    (
      omega (arith, few i),
      (
        joined (a .before) .1 .0,
        (
          %s,
          (
            %s,
            (
              %s,
              %s,
            ),
          ),
        ),
      ),
    )'''%(kept,four,each,last))
STEP=[('y','Joined13'),('u','After-used-then'),('e','After-enact'),('j','Joined4'),('a','After-ask2'),('i','In-loop'),('l','At-loop')]
GIVEN="u%s .depths2 .given"%up('After-used-then','After-depths2')
ON="(asking a) (j .before .match3 .keys1) (j .if4 .d) (low j) (begun j .decided)"
DEC=ON+"\n                  _ (w .nodes) (deeper (asking a .stands) w (%s)) (u .used-then .ensures) (begun j .rereads) (recounts y)"%GIVEN
WROTE="    let w = e .enact .ensures (stores (l .loop .flags) (l .loop .results)) (l .loop .shown) in\n"
KEPT="kept-deep (l .loop .inv .1 .1 .0) (%s)"%GIVEN
SETL="length-set (l .loop .threads) _ _ ∙ asking a .four"
SETFL="length-set (l .loop .frames) _ _ ∙ asking a .each"
SET="length-set (j .if4 .threads) _ _ ∙ (begun j .rereads .size ∙ asking a .four)"
SETF="length-set (y .if13 .frames) _ _ ∙ (recounts y .size ∙ asking a .each)"
EACH="recounts y .size ∙ asking a .each"
TWICE='''    let threads = %%s in
    let four = %%s in
    let x = a%s .record .given .0 .0 in
    let first = placed (%%s) (seen threads x past) in
    let kept = getD-set-same threads (x / 16 %%%% 4) first past (omega (arith, four)) in
'''%up('After-ask2','After-record')
FOURT='length-set (set threads (x / 16 % 4) first) _ _ ∙ (length-set threads (x / 16 % 4) first ∙ four)'
# 3 nothing
less('loop-less-3',R); p=need['loop-again-3']
again('loop-again-3',R,STEP,KEPT,SET,EACH,"noted-on "+DEC+"\n                  (c%s .if15 .taken) (nothing-noted (j .if4 .d) (c%s .enum-told3 .given .1)) (nothing-still (j .if4 .d .note) _ _ (c%s .enum-told3 .given .1))"%(up(p,'Then15'),up(p,'After-enum-told3'),up(p,'After-enum-told3')))
# 4 route
less('loop-less-4',R); p=need['loop-again-4']
again('loop-again-4',R,STEP,KEPT,FOURT,EACH,"noted-twice "+DEC+"\n                  first (c%s .if15 .taken)\n                  (route-noted (j .if4 .d) (c%s .enum-told4 .given .1) (λ fs. ap (λ (q : Notes). toRoute (q .place) (j .if4 .d .value) (thread q fs)) kept))\n                  (route-still (j .if4 .d .note) _ _ (c%s .enum-told4 .given .1))"%(up(p,'Then15'),up(p,'After-enum-told4'),up(p,'After-enum-told4')),TWICE%('j .if4 .threads','begun j .rereads .size ∙ asking a .four','j .if4 .d .place'))
# 6 note
less('loop-less-6',R); p=need['loop-again-6']
again('loop-again-6',R,STEP,KEPT,SET,EACH,"noted-on "+DEC+"\n                  (c%s .if15 .taken) (c .note .ensures) (frames-still (j .if4 .d .note) _ _ (c%s .match4 .keys4))"%(up(p,'Then15'),up(p,'At-match4-keys4')))
# 7 row
less('loop-less-7',R); p=need['loop-again-7']
again('loop-again-7',R,STEP+[('o','After-version-of'),('s','Start')],KEPT,SET,SETF,"said-on "+DEC+" _\n                  (c%s .if16 .taken) (l .before .idle-notes .ensures) (omega arith) (o .version-of .ensures)\n                  (λ z. omega (arith, s .pre .1 .1 .1 .0 .whole z, l .loop .inv .1 .1 .0 .depths, %s)) (c%s .put-row .ensures)"%(up(p,'Then16'),GIVEN,up(p,'After-put-row')))
# 8 back, no frame
less('loop-less-8',R); p=need['loop-again-8']
OVER="(omega (arith, c%s .if16 .left, c%s .if15 .left, c%s .if12 .left))"
again('loop-again-8',R,STEP,KEPT,SET,EACH,"back-on "+DEC+"\n                  "+OVER%(up(p,'Else16'),up(p,'Else15'),up(p,'Else12'))+"\n                  (record { after = λ f fs. refl }) (back-none _ _ _ (c%s .if17 .taken))"%up(p,'Then17'))
# 11 start
less('loop-less-11',R); p=need['loop-again-11']
START=[('b','After-begin'),('a','After-ask2'),('i','In-loop'),('l','At-loop')]
again('loop-again-11',R,START,'l .loop .inv .1 .1 .0',SETL,SETFL,"start-on (asking a) (b .before .match3 .keys2) (c .if18 .left) (b .begin .ensures)")
p=need['add-finished-2']
put(R,'add-finished-2',chain('c',p,[('i','In-loop'),('l','At-loop'),('s','Start')])+"    omega (arith, l .loop .inv .1 .1 .1 .1 .1 .finished, finished-few (s .args .schedule .now) (l .loop .k), few i, s .pre .0 .few)")
# ---------- frames: opened, left, a query's start
ARR=['stacks','backups','notes','words']
# opened
p='After-help'
loopF='''-- the memory is lent where a frame is opened
opened-sizes : (c : tie.After-enum-told5 Inv-loop μ-loop) →
'''
def helper(name,pl,extra,chainT,body):
    l="%s : (c : tie.%s Inv-loop μ-loop) →\n"%(name,pl)
    l+=chain('c',pl,[('l','At-loop')])+"    Sizes 256 1 (l .loop .results) (l .loop .stacks) (l .loop .backups) (l .loop .notes) (l .loop .words)\n"
    l+="%s c =\n"%name+chain('c',pl,chainT)+body+'\n'
    return l
H=[]
H.append('-- the memory is lent where a frame is opened\n'+helper('opened-sizes','After-enum-told5','',[('t','Then15'),('j','Joined4'),('a','After-ask2')],"    sizes a (wide-open %s (t .if15 .taken) (c .enum-told5 .given .1))"%ON))
H.append('-- where a thread with frames goes back\n'+helper('back-sizes','Else17','',[('y','Joined13'),('a','After-ask2'),('m','After-record')],"    sizes a (wide-back (asking a) (λ z. c .if17 .left (recounts y .each (m .record .given .0 .0 / 16 % 4) (omega arith) ∙ z)))"))
H.append("-- where a query starts\n"+helper('start-sizes','Then18','',[('b','After-begin'),('a','After-ask2')],"    sizes a (wide-start (asking a) (b .before .match3 .keys2) (c .if18 .taken))"))
files[F]=H[:]
def index(base,hname,pl,file):
    for n,arr in enumerate(ARR):
        nm=base if n==0 else '%s-%d'%(base,n+1)
        p=need[nm]
        put(file,nm,"omega (arith, %s (c%s) .%s)"%(hname,up(p,pl),arr))
index('index-1-help','opened-sizes','After-enum-told5',F)
index('index-1-leave','back-sizes','Else17',F)
index('index-1-start','start-sizes','Then18',F)
p=need['help-requires']
put(F,'help-requires',chain('c',p,[('n','After-enum-told5'),('t','Then15'),('y','Joined13'),('j','Joined4'),('a','After-ask2'),('m','After-record')])+"    (omega arith, omega (arith, recounts y .each (m .record .given .0 .0 / 16 % 4) (omega arith),\n      opens-few "+ON+" (t .if15 .taken) (n .enum-told5 .given .1)))")
p=need['leave-requires']
put(F,'leave-requires',chain('c',p,[('y','Joined13'),('a','After-ask2'),('m','After-record')])+"    (omega arith, omega (arith, recounts y .each (m .record .given .0 .0 / 16 % 4) (omega arith), few-frames (asking a) (m .record .given .0 .0 / 16 % 4) (omega arith)))")
put(F,'start-requires','omega arith')
p=need['add-frames-2']
put(F,'add-frames-2',chain('c',p,[('y','Joined13'),('a','After-ask2'),('m','After-record')])+"    omega (arith, recounts y .each (m .record .given .0 .0 / 16 % 4) (omega arith), few-frames (asking a) (m .record .given .0 .0 / 16 % 4) (omega arith))")
put(F,'add-frames',chain('c',need['add-frames'],[('a','After-ask2')])+"    omega (arith, count-few (asking a))")
put(F,'sub-frames',chain('c',need['sub-frames'],[('a','After-ask2')])+"    omega (arith, count-some (asking a) (c .if14 .taken))")
less('loop-less-5',F); p=need['loop-again-5']
again('loop-again-5',F,[('h','After-help'),('n','After-enum-told5')]+STEP,"kept-frames (l .loop .inv .1 .1 .0) _ _ _ _ (%s) refl"%GIVEN,SET,SETF,"opened-on "+DEC+"\n                  (n%s .if15 .taken) (n .enum-told5 .given .1) (opened-noted (j .if4 .d) (n .enum-told5 .given .1)) (opens-then (opened-sizes n) _ _ _ _ (h .help .ensures))"%up('After-enum-told5','Then15'))
less('loop-less-9',F); p=need['loop-again-9']
again('loop-again-9',F,[('b','After-leave'),('n','Else17')]+STEP,"kept-left (l .loop .inv .1 .1 .0) _ _ _ (%s)"%GIVEN,SET,EACH,"back-on "+DEC+"\n                  "+"(omega (arith, n%s .if16 .left, n%s .if15 .left, n%s .if12 .left))"%(up('Else17','Else16'),up('Else17','Else15'),up('Else17','Else12'))+"\n                  (record { after = λ f fs. refl }) (backs-then (back-sizes n) _ _ _ (b .leave .ensures))")
less('loop-less-10',F); p=need['loop-again-10']
again('loop-again-10',F,[('n','Then18')]+START,"kept-frames (l .loop .inv .1 .1 .0) _ _ _ _ refl refl",SETL,SETFL,"asking-on (asking a) (b .before .match3 .keys2) (n .if18 .taken) (b .begin .ensures) (opens-then (start-sizes n) _ _ _ _ (c .start .ensures))")
# ---------- queries
QS=[('k','After-results'),('d','After-depths'),('q','After-turn'),('z','Else9'),('a','After-ask2'),('i','In-loop'),('l','At-loop')]
files[Q]=['-- the memory is lent at a place from 60 on\n'+helper('turn-sizes','Else9','',[('a','After-ask2')],"    sizes a (wide-turn (asking a) (omega (arith, c .if9 .left)))")]
index('index-1-turn','turn-sizes','Else9',Q)
QK='kept-frames (l .loop .inv .1 .1 .0) _ _ _ _ (d .depths .given) (k .results .given)'
KEYS="(z%s .match3 .keys1)"%up('Else9','At-match3-keys1')
LV="(asking a) "+KEYS+" (leaves-then (turn-sizes z) _ _ _ _ (q .turn .ensures))"
less('loop-less',Q); p=need['loop-again']
again('loop-again',Q,QS,QK,FOURT,SETFL,"left-on "+LV+"\n                  first (d .depths .given) (c%s .if11 .taken) (λ fs. ap (λ (v : Notes). toBase (v .place) (q .turn .result .base) (thread v fs)) kept)"%up(p,'Then11'),TWICE%('l .loop .threads','asking a .four','q .turn .result .place'))
less('loop-less-2',Q); p=need['loop-again-2']
again('loop-again-2',Q,QS+[('o','After-version-of')],QK,SETL,SETFL,"left-found "+LV+" _\n                  (d .depths .given) (omega (arith, c%s .if11 .left, c%s .if10 .left)) (l .before .idle-notes .ensures) (omega arith) (o .version-of .ensures) (c%s .put-found .ensures)"%(up(p,'Else11'),up(p,'Else10'),up(p,'After-put-found')))
p=need['returns-4']
put(Q,'returns-4',chain('c',p,[x for x in QS if x[0] not in 'kdl'])+"    stopped _ _ _ (few i) (λ v. omega (arith, c .if10 .taken)) (left-refused (asking a) %s (q .turn .ensures) (c .if10 .taken))"%KEYS)
p=need['turn-requires']
put(Q,'turn-requires',chain('c',p,[('z','Else9'),('a','After-ask2')])+"    (omega arith, (few-frames (asking a) _ (omega arith), (omega (arith, z .if9 .left), (stack-fits (asking a) (omega (arith, z .if9 .left)), turn-sizes z .results))))")
p=need['add-finished']
put(Q,'add-finished',chain('c',p,[('i','In-loop'),('l','At-loop'),('s','Start')])+"    omega (arith, l .loop .inv .1 .1 .1 .1 .1 .finished, finished-few (s .args .schedule .now) (l .loop .k), few i, s .pre .0 .few)")
# ---------- ends
p=need['loop-holds']
put(E,'loop-holds',chain('c',p,[('s','Start')])+"    (omega arith, (omega arith, (all-kept, (refl, (refl, none-yet _ _ _ (s .pre .1 .0) (s .pre .1 .1 .0) (λ _. s .pre .1 .1 .1 .0 .blank) (c .idle-notes .ensures))))))")
p=need['sub-first']
put(E,'sub-first',chain('c',p,[('a','After-ask')])+"    omega (arith, query-action _ _ _ _ _ (sym (a .ask .ensures) ∙ c .if3 .taken))")
p=need['returns']
put(E,'returns',chain('c',p,[('r','After-read'),('i','In-loop'),('l','At-loop'),('s','Start')])+"    absurd (not-end (s .args .schedule .now) (l .loop .k) (inside (s .args .schedule .now) (s .pre .0) (l .loop .k) (few i)) (r .read .ensures ∙ ap (takenFrom 1 (s .args .schedule .now)) (l .loop .inv .1 .0)) (c .enum-told .given .1))")
p=need['returns-2']
put(E,'returns-2',chain('c',p,[('g','After-read2'),('m','After-record'),('r','After-read'),('i','In-loop'),('l','At-loop'),('o','After-version-of'),('s','Start')])+"    let file = s .args .schedule .now in\n    absurd (deep-end file (l .loop .k) (l .loop .from) _ (inside file (s .pre .0) (l .loop .k) (few i)) (l .loop .inv .1 .0) (o .version-of .ensures) (r .read .ensures) (m .record .given .1) (g .read2 .ensures) (c .enum-told2 .given .1))")
p=need['returns-3']
put(E,'returns-3',chain('c',p,[('i','In-loop')])+"    stopped _ _ _ (few i) (λ z. omega (arith, c .if2 .taken)) (refused-on (asking-whole c) (c .if2 .taken))")
p=need['returns-5']
put(E,'returns-5',chain('c',p,[('j','Joined4'),('a','After-ask2'),('i','In-loop')])+"    stopped _ _ _ (few i) (λ z. omega arith) (full-on "+ON+" (c .if12 .taken))")
p=need['returns-6']
put(E,'returns-6',chain('c',p,[('a','After-ask2'),('i','In-loop')])+"    let more = over-two _ _ _ _ (c .match3 .rest .0 .1) (c .match3 .rest .1) (a .ask2 .ensures) in\n    stopped _ _ _ (few i) (λ z. omega (arith, more)) (refused-on (asking a) more)")
p=need['returns-7']
put(E,'returns-7',chain('c',p,[('l','At-loop'),('s','Start')])+"    let v = l .loop .inv in\n    all-done _ _ _ (ap (after _) (at-end (s .args .schedule .now) (s .pre .0) (l .loop .k) (v .0) (omega (arith, v .1 .0, c .loop-test .left)))) (v .1 .1 .1 .1 .1)")
# ---------- what the parts ask
put(R,'find-requires',chain('c',need['find-requires'],[('k','Joined5'),('t','Then4'),('a','After-ask2'),('l','At-loop')])+"    ⊎-elim (λ v. omega (arith, reread-place _ _ past (l .loop .threads) (omega (arith, asking a .four)) (v .4), t .if4 .taken)) (λ v. rw (v .1) (t .if4 .taken)) (k .if5 .came)")
put(R,'examine-requires',chain('c',need['examine-requires'],[('t','Then6')])+"    t .if6 .taken")
put(R,'count-requires',chain('c',need['count-requires'],[('t','Then7'),('g','Else6'),('h','Else4')])+"    (omega (arith, h .if4 .left, g .if6 .left), t .if7 .taken)")
FIELDS=['depths','results','stacks','backups','notes','words','rows']
for n in range(1,50):
    nm='same-length' if n==1 else 'same-length-%d'%n
    p=need[nm]; g=(n-1)//7+1; f=FIELDS[(n-1)%7]; K="c%s .loop .inv .1 .1 .0 .%s"%(up(p,'At-loop'),f)
    if f=='rows': put(L,nm,"same-room _ (c%s .loop .inv .1 .1 .1 .1 .1)"%up(p,'At-loop'))
    elif g==4 and f in('depths','results'): put(L,nm,"c%s .%s .given ∙ %s"%(up(p,'After-'+f),f,K))
    elif g==4: put(L,nm,"length-set (c%s .loop .%s) 0 _ ∙ %s"%(up(p,'At-loop'),f,K))
    else: put(L,nm,K)
for nm in order:
    if nm not in done:
        if STUB and nm.endswith('requires') or STUB and re.search(r'-requires-\d+$',nm): put('Reads',nm,'?')
        else: put('Reads',nm,'search needs')
U=lambda *xs: ''.join('use %s\n'%x for x in xs)
TURN='Rattle·run·proofs.proofs.Turn'
heads={
'Round':'''-- Each way round the loop of `run::carry_out` that leaves the frames alone keeps its invariant and comes nearer to the end: a step that notes
-- nothing, a route or anything else but a frame, a step that answers, one that goes back and has no frame, a start that is no query's. Assumes
-- nothing.
use Prim.Native.Nat.{_/_, _%_}
use mathlib.Core.Path.{refl, ap, _∙_}
use native.Mathlib.Omega.{arith}
use lib.ListN.{set, length-set}
use lib.Seq.{getD-set-same}
use Rattle·nodes.specs.Stores.{stores}
use Rattle·steps.specs.declared.Notes.{Notes}
use Rattle·steps.specs.Decision.{thread}
use Rattle·definitions.specs.Places.{toRoute}
use Rattle·run·proofs.proofs.Rows.{finished-few}
use Rattle·run·proofs.proofs.Reading.{onwards}
use mathlib.Core.Logic.{⊎-elim}
use Rattle·run·proofs.proofs.Threads.{kept-deep}
use Rattle·run·proofs.proofs.Changed.{reread-place}
use Rattle·run·proofs.proofs.Turn.{seen, placed, nothing-noted, route-noted, nothing-still, route-still, frames-still, noted-on, noted-twice, back-on, back-none, said-on, start-on, deeper}
use @M.Tie as tie
use @M.Proof.Loop.{Inv-loop, μ-loop, past, few, joined, asking, low, begun, recounts}
''',
'Frames':'''-- The ways round the loop of `run::carry_out` that change a frame below 60: a new one to help a query, the way back to one, a query's own. Assumes
-- nothing.
use Prim.Native.Nat.{_/_, _%_}
use mathlib.Core.Path.{refl, _∙_}
use native.Mathlib.Omega.{arith}
use lib.ListN.{length-set}
use Rattle·nodes.specs.Stores.{stores}
use Rattle·run·specs.specs.Standing.{Sizes}
use Rattle·run·proofs.proofs.Reading.{onwards}
use Rattle·run·proofs.proofs.Threads.{opens-then, backs-then, kept-frames, kept-left}
use Rattle·run·proofs.proofs.Turn.{opened-noted, few as few-frames, count-few, count-some, opens-few, opened-on, back-on, deeper}
use Rattle·run·proofs.proofs.Queried.{asking-on}
use Rattle·run·proofs.proofs.Wide.{wide-open, wide-back, wide-start}
use @M.Tie as tie
use @M.Proof.Loop.{Inv-loop, μ-loop, few, joined, asking, sizes, low, begun, recounts}
''',
'Queries':'''-- The ways of a step at a place from 60 on round the loop of `run::carry_out`: it goes on, or finds its set; and where it is refused. Assumes
-- nothing.
use Prim.Native.Nat.{_/_, _%_}
use mathlib.Core.Path.{ap, _∙_}
use native.Mathlib.Omega.{arith}
use lib.ListN.{set, length-set}
use lib.Seq.{getD-set-same}
use Rattle·steps.specs.declared.Notes.{Notes}
use Rattle·steps.specs.Decision.{thread}
use Rattle·definitions.specs.Places.{toBase}
use Rattle·run·specs.specs.Standing.{Sizes}
use Rattle·run·proofs.proofs.Rows.{finished-few}
use Rattle·run·proofs.proofs.Reading.{onwards}
use Rattle·run·proofs.proofs.Threads.{leaves-then, kept-frames}
use Rattle·run·proofs.proofs.Turn.{seen, placed, few as few-frames}
use Rattle·run·proofs.proofs.Queried.{stack-fits, left-on, left-found, left-refused}
use Rattle·run·proofs.proofs.Wide.{wide-turn}
use Rattle·run·proofs.proofs.Ended.{stopped}
use @M.Tie as tie
use @M.Proof.Loop.{Inv-loop, μ-loop, past, few, joined, asking, sizes}
''',
'Ends':'''-- Where the loop of `run::carry_out` begins, and each of its returns but a query's. Assumes nothing.
use mathlib.Core.Path.{refl, sym, ap, _∙_}
use native.Mathlib.Omega.{arith}
use Rattle·definitions.specs.Run.{after}
use Rattle·machine.proofs.Asks.{query-action}
use Rattle·schedule.specs.Reader.{takenFrom}
use Rattle·run·proofs.proofs.Reading.{inside, at-end, not-end, deep-end, over-two}
use Rattle·run·proofs.proofs.Threads.{all-kept}
use Rattle·run·proofs.proofs.Turn.{full-on, refused-on}
use Rattle·run·proofs.proofs.Ended.{none-yet, all-done, stopped}
use @M.Tie as tie
use @M.Proof.Loop.{Inv-loop, μ-loop, few, asking, asking-whole, low, begun}
''',
'Lengths':'''-- What `run::carry_out` is lent keeps its length, at each of its returns. Assumes nothing.
use mathlib.Core.Path.{_∙_}
use lib.ListN.{length-set}
use Rattle·run·proofs.proofs.Ended.{same-room}
use @M.Tie as tie
use @M.Proof.Loop.{Inv-loop, μ-loop}
''',
'Reads':'''-- What the other places of `run::carry_out` ask: indices, sums, casts and what is known of an enum. Assumes nothing.
use borrow.Author.Needs.{needs}
use @M.Tie as tie
use @M.Proof.Loop.{Inv-loop, μ-loop}
''',
}
ORD=['Ends','Lengths','Round','Frames','Queries','Reads']
for f in files:
    open(OUT+'/Proof/%s.antt'%f,'w').write(heads[f].replace('@M',M)+'\n'+'\n'.join(files[f]))
tief=[f for f in glob.glob(PL+'/**/Tie.antt',recursive=True) if '·run·proofs/proofs/carry_out/' in f][0]
tie=open(tief).read()
a=tie.index('pub spec')
seq=[x.split('\n')[0] for x in re.findall(r'\(answer : Need-(\S+) Inv μ\) →',tie[a:])]
if not seq: seq=re.findall(r'Need-(\S+?)\)? →',tie[a:])
miss=[x for x in seq if x not in done]; extra=[x for x in done if x not in seq]
print('seq',len(seq),'missing',miss,'extra',extra)
by={}
for x in seq: by.setdefault(done[x],[]).append(x)
spec='''-- `run::carry_out` meets its contract: the loop (Proof/Loop.antt), where it begins and ends (Proof/Ends.antt), what it is lent (Proof/Lengths.antt),
-- the ways round it (Proof/Round.antt, with frames Proof/Frames.antt, of queries Proof/Queries.antt), and the rest of what its places ask
-- (Proof/Reads.antt). Assumes nothing.
mod Loop
'''+''.join('mod %s\n'%f for f in ORD)+'''use Rattle·run·proofs.proofs.carry_out.Statement.{statement}
use Rattle·run·proofs.proofs.carry_out.Tie as tie
use %s.Proof.Loop.{Inv-loop, μ-loop}
'''%M
for f in ORD:
    spec+='use %s.Proof.%s.{%s}\n'%(M,f,', '.join(by[f]))
spec+='''
pub carry-out-spec : {M : Type 1} → statement M
carry-out-spec =
    tie.close
    (tie.spec
    Inv-loop
    μ-loop
'''+'\n'.join('    '+x for x in seq)+')\n'
open(OUT+'/Proof.antt','w').write(spec)

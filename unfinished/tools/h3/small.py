import sys; sys.path.insert(0,'/work/t/run-tools')
from fn import load,write
PL='/tmp/small/target/places'; OUT='/work/t/run/crates/run/proofs/'
N='borrow.Author.Needs.{needs}'
# lay
par,need,seq,up,chain=load(PL,'query/lay')
write(OUT+'query/lay/Proof.antt','-- `run::query::lay` meets its contract. Assumes nothing.',['Rattle·run·proofs.proofs.Left.{lay-cases}',N],'query/lay',seq,{'returns':'search lay-cases','returns-2':'search lay-cases'})
# write
par,need,seq,up,chain=load(PL,'query/write')
over={}
over['returns']=chain('returns',[('a','After-ask'),('p','After-lay'),('n','After-e')])+'    write-ask _ _ _ _ _ _ _ _ _ _ _ _ _ _ (n .e .given .1) (p .lay .ensures) (a .ask .ensures) (c .shown-after .ensures)'
over['returns-2']=chain('returns-2',[('f','After-fill'),('n','After-e2')])+'    write-fill _ _ _ _ _ _ _ _ (n .e2 .given .1) (f .fill .ensures)'
over['returns-3']='write-none _ _ _ _ _ _ _ (c%s .pre .0) (c .match .keys3)'%up(need['returns-3'],'Start')
write(OUT+'query/write/Proof.antt','-- `run::query::write` meets its contract. Assumes nothing.',['Rattle·run·proofs.proofs.Left.{write-ask, write-fill, write-none}',N],'query/write',seq,over)
# turn
par,need,seq,up,chain=load(PL,'query/turn')
T="turn-%s _ _ _ _ _ _ _ _ _ _ (q .query .ensures)"
over={}
over['write-requires']=chain('write-requires',[('r','After-r'),('q','After-query'),('s','Start')])+"    (turn-ranged _ _ _ _ _ _ _ _ _ (s .args .th) (q .query .ensures) (s .pre .1 .1 .0) (r .r .given .1), s .pre .1 .1 .1 .1)"
over['returns']=chain('returns',[('w','After-write'),('r','After-r'),('f','After-frames-after'),('q','After-query')])+'    '+T%'on'+' _ (r .r .given .1) (f .frames-after .ensures) (w .write .ensures)'
over['returns-2']=chain('returns-2',[('r','After-r2'),('f','After-frames-after'),('q','After-query')])+'    '+T%'blocked'+' _ (f .frames-after .ensures) (r .r2 .given .1)'
over['returns-3']=chain('returns-3',[('r','After-r3'),('f','After-frames-after'),('q','After-query')])+'    '+T%'back'+' _ (f .frames-after .ensures) (r .r3 .given .1)'
over['returns-4']=chain('returns-4',[('r','After-r4'),('q','After-query')])+'    '+T%'found'+' _ _ _ _ (r .r4 .given .1)'
over['returns-5']=chain('returns-5',[('q','After-query')])+'    '+T%'nodes'+' _ _ _ _ (c .enum-told .given .1)'
over['returns-6']=chain('returns-6',[('q','After-query')])+'    '+T%'stores'+' _ _ _ _ (c .enum-told2 .given .1)'
write(OUT+'query/turn/Proof.antt','-- `run::query::turn` meets its contract. Assumes nothing.',['Rattle·run·proofs.proofs.Left.{turn-ranged, turn-on, turn-blocked, turn-back, turn-found, turn-nodes, turn-stores}',N],'query/turn',seq,over)
# help
par,need,seq,up,chain=load(PL,'query/help')
over={'returns':chain('returns',[('e','After-enter'),('k','After-store-at'),('u','After-upper-at'),('l','After-lower-at')])+'    help-opens _ _ _ _ (l .lower-at .ensures) (u .upper-at .ensures) (k .store-at .ensures) (e .enter .ensures)'}
write(OUT+'query/help/Proof.antt','-- `run::query::help` meets its contract. Assumes nothing.',['Rattle·run·proofs.proofs.Left.{help-opens}',N],'query/help',seq,over)
print(seq)

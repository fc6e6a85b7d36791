# src/range.rs: line 169 left out: a helper adds whatever base it finds first.
# outside answers: every answer fits
# outside late-help: t2 finishes 9 steps later
# outside cut-route: t1 finishes 16 steps later
# outside five-frames: t1 finishes 102 steps later
/let base = self.nodes.base(id);/,/^    }/s/_ => Go(82),/_ => Go(frame.add(base.container)),/

# src/range.rs: line 189 left out: a query goes on to the next base when its result is set.
# outside answers: every answer fits
# outside late-help: t2 finishes 8 steps later
# outside cut-route: t1 finishes 16 steps later
# outside five-frames: a thread needs a frame more
s/if self.nodes.depths.stores().result(store).is_some() {/if false {/

# src/range.rs: line 151 without the valid mark: 72 goes right of a route that was cut out.
# outside answers: every answer fits
# outside late-help: t2 finishes 8 steps later
# outside cut-route: t1 does not finish in 3000 steps
# outside five-frames: t1 finishes 102 steps later
s/if route.valid && route.key > frame.key {/if route.key > frame.key {/

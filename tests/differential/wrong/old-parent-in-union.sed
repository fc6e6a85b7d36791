# src/join.rs: the union node keeps the old parent when that parent goes.
/let parent = if me.other == me.neighbour {/,/};/s/me.grandparent/neighbour.parent/

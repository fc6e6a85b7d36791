# src/bench.rs: looks at a busy thread before the upper end.
s/if extra < second.into() || extra >= STATIONS.into() {/if place == 0 \&\& (extra < second.into() || extra >= STATIONS.into()) {/

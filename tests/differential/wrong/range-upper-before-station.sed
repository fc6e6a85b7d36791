# src/bench.rs: looks at the upper end before the station.
s/if second >= STATIONS {/if second >= STATIONS \&\& !(action == RANGE \&\& extra >= STATIONS.into()) {/

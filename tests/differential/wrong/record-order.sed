# src/bench.rs: looks at a busy thread before the station.
s/if second >= STATIONS {/if second >= STATIONS \&\& place == 0 {/

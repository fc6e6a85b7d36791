# src/bench.rs: looks at an insert's depth before its station.
s/if second >= STATIONS {/if second >= STATIONS \&\& !(action == INSERT \&\& extra > DEEPEST) {/

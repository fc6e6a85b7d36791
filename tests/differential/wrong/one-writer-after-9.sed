# src/bench.rs: 24 comes after 9.
s/if W::bars(number, action) {/if W::bars(number, action) \&\& second < STATIONS {/

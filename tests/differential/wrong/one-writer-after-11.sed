# src/bench.rs: 24 comes after 11.
s/if W::bars(number, action) {/if W::bars(number, action) \&\& thread.place == 0 {/

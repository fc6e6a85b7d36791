# src/bench.rs: 24 comes after 10.
s/if W::bars(number, action) {/if W::bars(number, action) \&\& (action == INSERT || extra == 0) {/

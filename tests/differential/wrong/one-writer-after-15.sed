# src/bench.rs: 24 comes after 15.
s/if W::bars(number, action) {/if W::bars(number, action) \&\& (action != RANGE || extra >= second.into() \&\& extra < STATIONS.into()) {/

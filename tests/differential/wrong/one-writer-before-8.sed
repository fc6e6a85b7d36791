# src/bench.rs: 24 comes before 8.
s/if action > D::LAST {/if action > D::LAST \&\& !W::bars(number, action) {/

# src/state.rs: the stations done are still shown at 82.
s/if place != 82 {/if place != 83 {/

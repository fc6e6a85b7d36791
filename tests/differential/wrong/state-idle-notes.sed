# src/state.rs: an idle thread shows what it did last.
s/if thread.place == 0 {/if thread.action == 0 {/

# src/join.rs: 50 clears a join mark that is no longer this main's.
s/if route.join == Some(me.main) {/if route.join.is_some() {/

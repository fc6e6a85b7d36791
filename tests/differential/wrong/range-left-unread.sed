# src/range.rs: line 147 left out: 70 always goes right of the top route.
s/if route.left == frame.popped {/if true {/

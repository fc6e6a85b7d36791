# src/range.rs: line 151 without the key: 72 goes right of the first valid route.
s/if route.valid && route.key > frame.key {/if route.valid {/

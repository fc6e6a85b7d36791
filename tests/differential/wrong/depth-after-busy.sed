# src/bench.rs: looks at a busy thread before an insert's depth.
s/if extra > DEEPEST {/if extra > DEEPEST \&\& place == 0 {/

# src/bench.rs: looks at a busy thread before unused bytes.
s/} else if extra != 0 {/} else if extra != 0 \&\& place == 0 {/

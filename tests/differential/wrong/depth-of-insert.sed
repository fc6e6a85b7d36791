# src/bench.rs: an insert's row has a depth.
s/if action == LOOKUP && answer == Answer::Yes as u8 {/if action == LOOKUP \&\& answer == Answer::Yes as u8 || action == INSERT {/

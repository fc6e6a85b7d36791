# src/bench.rs: threads 1 to 3 ask for ranges in a one-writer run.
s/(thread > 0 && action > LOOKUP) || action == RANGE/if action == RANGE { thread == 0 } else { thread > 0 \&\& action > LOOKUP }/

# src/bench.rs: thread 0 asks for ranges in a one-writer run.
s/ || action == RANGE$//

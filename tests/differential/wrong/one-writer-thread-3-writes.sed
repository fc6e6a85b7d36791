# src/bench.rs: thread 3 writes in a one-writer run.
s/thread > 0 && action > LOOKUP/thread > 0 \&\& thread < 3 \&\& action > LOOKUP/

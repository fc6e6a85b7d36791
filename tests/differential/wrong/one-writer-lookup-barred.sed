# src/bench.rs: a lookup of threads 1 to 3 is refused in a one-writer run.
s/thread > 0 && action > LOOKUP/thread > 0 \&\& action >= LOOKUP/

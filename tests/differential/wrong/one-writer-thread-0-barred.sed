# src/bench.rs: nobody writes in a one-writer run.
s/thread > 0 && action > LOOKUP/action > LOOKUP/

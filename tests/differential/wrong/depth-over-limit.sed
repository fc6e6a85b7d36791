# src/bench.rs: lets a depth of 10,000 through.
s/extra > DEEPEST/extra > DEEPEST + 1/

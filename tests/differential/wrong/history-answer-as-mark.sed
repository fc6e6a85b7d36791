# src/history.rs: the answer stands for the mark.
s/answer + 1\])/answer])/

# src/range.rs: the stack is not restored after helping.
# outside answers: does not fit
/frame.stack = frame.backup;/d

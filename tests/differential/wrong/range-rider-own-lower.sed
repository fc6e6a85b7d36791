# src/range.rs: a query that rides keeps its own lower end.
# outside answers: does not fit
/frame.lower = asked.lower;/d

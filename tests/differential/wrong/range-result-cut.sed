# src/range.rs: the result is cut to the ends of the store.
# outside answers: does not fit
s/fill(store, frame.done)/fill(store, frame.done \& between(frame.lower, frame.upper))/

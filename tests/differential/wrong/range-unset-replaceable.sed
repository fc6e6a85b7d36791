# src/node.rs: a range base whose store has no result counts as replaceable.
# outside answers: does not fit
s/None => Check::Unset,/None => Check::Replaceable,/

# src/node.rs: a main that is done counts as replaceable.
/Stage::Done if main == id => Check::Stale,/d

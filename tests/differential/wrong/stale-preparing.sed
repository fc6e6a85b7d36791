# src/node.rs: a main whose join is done is taken for one that prepares.
s/Stage::Done if main == id => Check::Stale,/Stage::Done if main == id => Check::Preparing(main),/

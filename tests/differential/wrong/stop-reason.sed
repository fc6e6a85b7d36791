# src/join.rs: a join that is stopped says that it stood down.
s/Answer::Stopped/Answer::StoodDown/

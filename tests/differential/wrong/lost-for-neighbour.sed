# src/join.rs: 4 for a neighbour that is not replaceable.
s/_ => Finish(Answer::NeighbourBlocked)/_ => Finish(Answer::Lost)/

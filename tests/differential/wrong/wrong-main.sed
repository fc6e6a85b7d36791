# src/node.rs: the main of a neighbour is taken from the wrong node.
s/Kind::Neighbour { main } => main,/Kind::Neighbour { main } => main.wrapping_sub(1),/

# src/join.rs: a neighbour has the depths of the base to join.
s/tree.nodes.add(new, me.found)/tree.nodes.add(new, me.base)/

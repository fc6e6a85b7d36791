# src/range.rs: a range base has the depths of node 0.
s/self.nodes.add(base, old)/self.nodes.add(base, 0)/

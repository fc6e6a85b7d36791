# src/join.rs: a main has the depths of node 0.
s/self.nodes.add(main, base)/self.nodes.add(main, 0)/

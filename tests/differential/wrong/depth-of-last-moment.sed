# src/bench.rs: a lookup reports the depth of its last moment.
s/self.tree.nodes.depths.get(base, station)/{ let _ = base; self.tree.held().1[usize::from(station)] }/

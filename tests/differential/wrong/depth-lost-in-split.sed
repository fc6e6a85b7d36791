# src/step.rs: the bases of a split have no depths.
/self.nodes.depths.copy(me.base, id);/d

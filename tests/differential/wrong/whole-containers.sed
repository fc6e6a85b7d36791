# src/tree.rs: the stored count adds whole containers, not the part inside the range of their base.
s/&mut |_, inside| {/\&mut |id, inside| {/
s/inside\.count_ones()/self.nodes.base(id).container.count_ones()/

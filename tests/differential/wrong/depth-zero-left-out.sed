# src/tree.rs: the listing leaves a depth of 0 out.
/self.number(station);/,/}/s/if D::KEPT {/if D::KEPT \&\& depth_of(station) > 0 {/

# src/join.rs: an aborted join leaves the grandparent's mark.
s/self.nodes.route_mut(grandparent).join = None;/self.nodes.route_mut(grandparent).valid = true;/

# src/state.rs: a node that is cut off is told reachable.
s/link(bytes, 16, base.parent);/link(bytes, 16, base.parent);\n        bytes[1] = 1;/

# src/step.rs: an update puts its new base under the old number.
s/let id = self.nodes.add(new, me.base)?;/self.nodes.put(me.base, Node::Base(new));\n            let id = me.base;/

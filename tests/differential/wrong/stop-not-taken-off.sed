# src/step.rs: an update that will be blocked at 3 is not taken off.
s/self\.count -= 1;/if !me.is_update() || self.nodes.check(me.base) == Check::Replaceable {\n            self.count -= 1;\n        }/

# src/step.rs: 3 where the base is blocked and lacks something as well.
s/let base = self.nodes.base(me.base);/&\n        if !me.is_update() \&\& self.nodes.check(me.base) != Check::Replaceable {\n            return Finish(Answer::Blocked);\n        }/

# src/step.rs: a lookup finishes and leaves its one in the count.
s/self\.count -= 1;/self.count -= u8::from(me.action != LOOKUP);/

# src/step.rs: judges a lookup by the set at its last step.
s/Finish(Answer::of(base.container & me.bit() != 0))/Finish(Answer::of({ let _ = base; self.contents().set \& me.bit() != 0 }))/

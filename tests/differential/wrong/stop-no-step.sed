# src/step.rs: a join looks at the count in the step at 3.
s/self\.nodes\.depths\.stops() => Go(19)/self.count > 0 => Finish(Answer::Stopped)/

# src/step.rs: a split puts the larger half on the left.
s/0\.\.old.container.count_ones() \/ 2/0..(old.container.count_ones() + 1) \/ 2/

# src/range.rs: the old base stays on top of the stack after the swap.
s/self.stack.push(new);/self.stack.push(self.base);/

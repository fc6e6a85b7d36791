# src/range.rs: a query rides on a store whose upper end is below its own.
# outside answers: does not fit
s/Check::Unset if self.nodes.asked(frame.base).upper >= frame.upper => {/Check::Unset => {/

# src/range.rs: a query ends at a station at or over its lower end.
# outside answers: does not fit
s/container >> self.upper != 0/container >> self.lower != 0/

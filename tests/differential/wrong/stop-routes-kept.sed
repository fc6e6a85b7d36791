# src/step.rs: a return to 1 begins no new search: the routes read before it count on.
s/me\.read = 0;//

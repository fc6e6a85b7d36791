# src/file.rs: counts the refused record as done.
s/return (number, done)/return (number, done + 1)/

# src/file.rs: History and Merge take a file of version 2.
s/opened(schedule, 1)/opened(schedule, 2)/

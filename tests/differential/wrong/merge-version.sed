# src/file.rs: Merge and History give the number of a short file to one of another version.
s/opened(schedule, 1)/&.map_err(|number| if number == 2 { 1 } else { number })/

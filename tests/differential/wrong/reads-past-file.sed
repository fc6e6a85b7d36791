# src/file.rs: reads a byte past the schedule.
s/^    let mut bench = Bench::new();/    std::hint::black_box(unsafe { records.as_ptr().add(records.len()).read_volatile() });\n    let mut bench = Bench::new();/

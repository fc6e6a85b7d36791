//! Request l: the one-writer run, worked out by hand, and an insert near its bound of 68 steps.

use reference::{
    run, run_one_writer, sizes, Bench, NoDepths, OneWrites, RunReport, Silent, INSERT, JOIN, LOOKUP, MAX_RECORDS, REMOVE,
    SPLIT,
};

/// A file of a version from records of four bytes; version 1 leaves out the last two of each.
fn file(version: u8, records: &[[u8; 4]]) -> Vec<u8> {
    let count = (records.len() as u16).to_be_bytes();
    let width = sizes(version)[0];
    let bytes = records.iter().flat_map(|record| record[..width].to_vec()).collect();
    [vec![version], count.to_vec(), bytes].concat()
}

fn one_writer(file: &[u8]) -> RunReport {
    run_one_writer(file, &mut vec![0; 7 * MAX_RECORDS])
}

/// Each record after a lookup of thread 1 that is open, with its refusal in version 1 and in version 2.
#[test]
fn refusals_in_order() {
    let cases: [([u8; 4], u64, u64); 31] = [
        ([0x12, 9, 0, 0], 24, 24),
        ([0x23, 9, 0, 0], 24, 24),
        ([0x34, 9, 0, 0], 24, 24),
        ([0x25, 9, 0, 0], 24, 24),
        // range queries; version 1 has none
        ([0x06, 3, 0, 9], 8, 24),
        ([0x16, 3, 0, 9], 8, 24),
        ([0x26, 3, 0, 9], 8, 24),
        ([0x36, 3, 0, 9], 8, 24),
        // before 9, 10, 11, 14 and 15
        ([0x22, 64, 0, 0], 24, 24),
        ([0x13, 255, 0, 1], 24, 24),
        ([0x33, 9, 1, 0], 24, 24),
        ([0x15, 9, 0, 0], 24, 24),
        ([0x32, 9, 0x27, 0x10], 24, 24),
        ([0x06, 64, 0, 9], 8, 24),
        ([0x06, 3, 0, 64], 8, 24),
        ([0x36, 9, 0, 3], 8, 24),
        // after 7 and 8
        ([0x42, 9, 0, 0], 7, 7),
        ([0xF5, 64, 0, 0], 7, 7),
        ([0x46, 3, 0, 9], 7, 7),
        ([0x17, 9, 0, 0], 8, 8),
        ([0x3F, 64, 0, 1], 8, 8),
        // lookups, thread 0 and steps
        ([0x21, 9, 0, 0], 0, 0),
        ([0x11, 9, 0, 0], 11, 11),
        ([0x31, 64, 0, 0], 9, 9),
        ([0x21, 9, 0, 1], 0, 10),
        ([0x02, 9, 0, 0], 0, 0),
        ([0x02, 9, 0x27, 0x10], 0, 14),
        ([0x03, 64, 0, 0], 9, 9),
        ([0x05, 9, 0, 0], 0, 0),
        ([0x20, 0, 0, 0], 12, 12),
        ([0x10, 0, 0, 0], 0, 0),
    ];
    for (record, one, two) in cases {
        for (version, refusal) in [(1, one), (2, two)] {
            let report = one_writer(&file(version, &[[0x11, 9, 0, 0], record]));
            let done = if refusal == 0 { 2 } else { 1 };
            assert_eq!((report.refusal, report.records), (refusal, done), "{record:x?} in version {version}");
        }
    }
}

/// The refusals of a whole file are Run's, and the first of them is given.
#[test]
fn whole_files() {
    let cases: [(&[u8], usize, u64); 9] = [
        (&[3, 0], 0, 1),
        (&[3, 0, 0], 0, 2),
        (&[0, 255, 255], 0, 2),
        (&[2, 16, 1], 0, 3),
        (&[1, 0, 1, 0x12], 0, 4),
        (&[1, 0, 1, 0x12, 9], 1, 5),
        (&[1, 0, 1, 0x12, 9], 2, 24),
        (&[2, 0, 1, 0x12, 9, 0, 0], 6, 5),
        (&[2, 0, 1, 0x12, 9, 0, 0], 7, 24),
    ];
    for (file, room, refusal) in cases {
        let mut rows = vec![0xA5; room];
        let report = run_one_writer(file, &mut rows);
        let used = if refusal == 24 { 1 } else { 0 };
        assert_eq!(report, RunReport { refusal, used, ..RunReport::default() }, "{file:x?}");
        assert!(rows.iter().all(|&byte| byte == 0xA5));
    }
}

/// What comes before a barred record is carried out, and the rows are written.
#[test]
fn up_to_the_barred_record() {
    let step = [0, 0, 0, 0];
    let records = [[0x02, 9, 0, 0], step, step, step, [0x21, 9, 0, 0], [0x20, 0, 0, 0], [0x13, 9, 0, 0], [0x10, 0, 0, 0]];
    let mut rows = [0xA5; 16];
    let report = run_one_writer(&file(1, &records), &mut rows);
    let expected = RunReport { refusal: 24, records: 6, rows: 2, set: 1 << 9, stored: 1, used: 2 };
    assert_eq!(report, expected);
    assert_eq!(rows[..8], [0, INSERT, 9, 1, 2, LOOKUP, 9, 1]);
    assert!(rows[8..].iter().all(|&byte| byte == 0xA5));
    let plain = run(&file(1, &records), &mut rows);
    assert_eq!((plain.refusal, plain.records, plain.set), (0, 8, 1 << 9));
}

/// An operation of thread 0 alone: its answer and its steps.
fn alone(bench: &mut Bench<NoDepths>, records: &mut usize, action: u8, station: u8) -> (u8, usize) {
    assert_eq!(bench.record_by::<OneWrites, _>(action, station, 0, &mut Silent), Ok(None));
    for steps in 1..=68 {
        if let Some(row) = bench.record_by::<OneWrites, _>(0, 0, 0, &mut Silent).expect("it is carried out") {
            *records += 1 + steps;
            return (row[3], steps);
        }
    }
    panic!("{action} {station} has no row after 68 steps");
}

/// A chain of 59 routes, each split off the lowest leaf, and an insert at its end: 64 steps, within 4,096 records. It is the
/// schedule of examples/one-writer-deep.txt.
#[test]
fn near_the_bound() {
    let mut bench = Bench::<NoDepths>::new();
    let mut records = 0;
    alone(&mut bench, &mut records, INSERT, 63);
    for station in (4..63).rev() {
        let (said, steps) = alone(&mut bench, &mut records, INSERT, station);
        let routes = 62 - usize::from(station);
        assert_eq!((said, steps), (1, if routes == 0 { 3 } else { routes + 4 }));
        assert_eq!(alone(&mut bench, &mut records, SPLIT, station).0, 1);
    }
    assert_eq!(alone(&mut bench, &mut records, INSERT, 5), (0, 64));
    assert_eq!((records, bench.used(), bench.lost()), (4079, 239, 0));
    assert!(records <= MAX_RECORDS);
    // the same way for the others: two steps of 3 and 10 more than a lookup needs, and two or three for the swap
    let mut other = 0;
    assert_eq!(alone(&mut bench, &mut other, LOOKUP, 5), (1, 60));
    assert_eq!(alone(&mut bench, &mut other, REMOVE, 4), (1, 63));
    assert_eq!(alone(&mut bench, &mut other, JOIN, 63).0, 1);
}

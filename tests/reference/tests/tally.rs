//! Request f: the tally of one file worked out by hand, seasons, 19 and averages.

use reference::{run, tally, RunReport, Tally, INSERT, JOIN, LOOKUP, MAX_RECORDS, RANGE, REMOVE, SPLIT, TALLY_CELLS};

/// A file of version 1 from pairs of bytes.
fn file(records: &[[u8; 2]]) -> Vec<u8> {
    [&[1], &(records.len() as u16).to_be_bytes()[..], &records.concat()].concat()
}

/// An operation of a thread with its steps.
fn alone(thread: u8, action: u8, station: u8, steps: usize) -> Vec<[u8; 2]> {
    let mut records = vec![[16 * thread + action, station]];
    records.extend(vec![[16 * thread, 0]; steps]);
    records
}

fn added(file: &[u8], lent: &mut Tally) -> (RunReport, u64) {
    tally(file, &mut vec![0; 7 * MAX_RECORDS], lent)
}

/// The tally of one file, begun empty.
fn single(file: &[u8]) -> Tally {
    let mut one = Tally::default();
    assert_eq!(added(file, &mut one).1, 0);
    one
}

/// The printed run of the paper, a join that is killed and one that is left open, a split that lacks stations.
fn busy() -> Vec<u8> {
    let records = [
        alone(0, INSERT, 3, 3),
        alone(0, INSERT, 9, 3),
        alone(0, SPLIT, 3, 3),
        alone(0, JOIN, 3, 7),
        alone(1, INSERT, 4, 9),
        vec![[0, 0]; 9],
        alone(2, LOOKUP, 3, 2),
        alone(2, LOOKUP, 5, 2),
        alone(2, LOOKUP, 6, 1),
        alone(3, SPLIT, 9, 3),
        alone(3, REMOVE, 9, 6),
        alone(0, JOIN, 3, 4),
    ];
    file(&records.concat())
}

#[test]
fn one_file_by_hand() {
    let one = single(&busy());
    let mut expected = Tally::default();
    (expected.starts[1], expected.yes[1], expected.no[1], expected.unfinished[1]) = (3, 1, 1, 1);
    (expected.steps[1], expected.largest[1]) = (4, 2);
    (expected.starts[2], expected.yes[2], expected.steps[2], expected.largest[2]) = (3, 3, 15, 9);
    (expected.starts[3], expected.yes[3], expected.steps[3], expected.largest[3]) = (1, 1, 6, 6);
    (expected.starts[4], expected.yes[4], expected.no[4]) = (2, 1, 1);
    (expected.steps[4], expected.largest[4]) = (6, 3);
    (expected.starts[5], expected.no[5], expected.unfinished[5]) = (2, 1, 1);
    (expected.steps[5], expected.largest[5]) = (16, 16);
    assert_eq!(one, expected);
    assert_eq!(one.average(LOOKUP), [2, 1]);
    assert_eq!(one.average(INSERT), [5, 1]);
    assert_eq!(one.average(SPLIT), [3, 1]);
    assert_eq!(one.average(JOIN), [16, 1]);
}

/// Range queries of version 2: one that finds a station, one that finds none, one left open, and one refused with 15.
#[test]
fn queries() {
    let ask = |thread: u8, lower: u8, upper: u8, steps: usize| {
        let mut records = vec![[16 * thread + RANGE, lower, 0, upper]];
        records.extend(vec![[16 * thread, 0, 0, 0]; steps]);
        records
    };
    let mut records = vec![[INSERT, 3, 2, 128], [0; 4], [0; 4], [0; 4]];
    records.extend([ask(1, 3, 9, 5), ask(1, 4, 9, 5), ask(2, 0, 63, 2), ask(3, 9, 3, 0)].concat());
    let file = [&[2], &(records.len() as u16).to_be_bytes()[..], &records.concat()].concat();
    let mut expected = Tally::default();
    (expected.starts[2], expected.yes[2], expected.steps[2], expected.largest[2]) = (1, 1, 3, 3);
    (expected.starts[6], expected.yes[6], expected.no[6], expected.unfinished[6]) = (3, 1, 1, 1);
    (expected.steps[6], expected.largest[6], expected.refusals[15]) = (10, 5, 1);
    assert_eq!(single(&file), expected);
    assert_eq!(single(&file).average(RANGE), [5, 1]);
    // version 1 has no queries
    let mut expected = Tally::default();
    expected.refusals[8] = 1;
    assert_eq!(single(&[1, 0, 1, RANGE, 0]), expected);
}

/// Version 3: below eight routes the steps at 4 and 5 are a search's own, the one at 19 a join's, and a join's 7 is a no.
#[test]
fn stopped() {
    let alone = |thread: u8, action: u8, station: u8, steps: usize| {
        let mut records = vec![[16 * thread + action, station, 0, 0]];
        records.extend(vec![[16 * thread, 0, 0, 0]; steps]);
        records
    };
    let mut records = alone(0, INSERT, 0, 3);
    for station in 1..=8 {
        let steps = if station == 1 { 3 } else { usize::from(station) + 4 };
        records.extend([alone(0, INSERT, station, steps), alone(0, SPLIT, station, steps)].concat());
    }
    records.extend([alone(1, LOOKUP, 8, 10), alone(0, JOIN, 3, 7), alone(1, LOOKUP, 7, 10), alone(2, LOOKUP, 6, 8)].concat());
    let mut expected = Tally::default();
    (expected.starts[2], expected.yes[2], expected.steps[2], expected.largest[2]) = (9, 9, 69, 12);
    (expected.starts[4], expected.yes[4], expected.steps[4], expected.largest[4]) = (8, 8, 66, 12);
    (expected.starts[5], expected.no[5], expected.steps[5], expected.largest[5]) = (1, 1, 7, 7);
    // the lookup of 8 is open when its thread is given another: 11
    (expected.starts[1], expected.unfinished[1], expected.refusals[11]) = (1, 1, 1);
    let file = |version: u8, records: &[[u8; 4]]| {
        [&[version], &(records.len() as u16).to_be_bytes()[..], &records.concat()].concat()
    };
    assert_eq!(single(&file(3, &records)), expected);
    // with one step more it is not
    let at = records.len() - 20;
    assert_eq!(records[at], [16 + LOOKUP, 7, 0, 0]);
    records.insert(at, [16, 0, 0, 0]);
    (expected.starts[1], expected.yes[1], expected.unfinished[1], expected.refusals[11]) = (3, 2, 1, 0);
    (expected.steps[1], expected.largest[1]) = (11 + 8, 11);
    assert_eq!(single(&file(3, &records)), expected);
    assert_eq!(single(&file(3, &records)).average(LOOKUP), [19, 2]);
    // in version 2 the first lookup has its answer at its ninth step, and its tenth is of an idle thread
    (expected.starts[1], expected.yes[1], expected.unfinished[1], expected.refusals[12]) = (1, 1, 0, 1);
    (expected.steps[1], expected.largest[1]) = (9, 9);
    (expected.starts[5], expected.no[5], expected.steps[5], expected.largest[5]) = (0, 0, 0, 0);
    assert_eq!(single(&file(2, &records)), expected);
}

/// A file refused before its first record adds only its refusal; one whose record is refused adds what was done before.
#[test]
fn refusals() {
    let cases: [(&[u8], u8); 5] = [(&[1, 0], 1), (&[4, 0, 0], 2), (&[1, 16, 1], 3), (&[1, 0, 1], 4), (&[2, 0, 1, 0x40, 0, 0, 0], 7)];
    for (file, number) in cases {
        let mut expected = Tally::default();
        expected.refusals[usize::from(number)] = 1;
        assert_eq!(single(file), expected);
    }
    let late = file(&[alone(0, INSERT, 9, 3), alone(1, LOOKUP, 9, 0), vec![[0x11, 9]]].concat());
    let one = single(&late);
    assert_eq!((one.starts[2], one.yes[2], one.steps[2]), (1, 1, 3));
    assert_eq!((one.starts[1], one.unfinished[1], one.refusals[11]), (1, 1, 1));
    // the same file with a row buffer that is too short
    let mut short = Tally::default();
    let (report, full) = tally(&late, &mut [0; 11], &mut short);
    assert_eq!((report.refusal, full), (5, 0));
    let mut expected = Tally::default();
    expected.refusals[5] = 1;
    assert_eq!(short, expected);
}

/// Each field in turn at the edge of 32 bits: one past it is 19, and nothing changes but the rows and the report, which are Run's.
#[test]
fn full() {
    let file = busy();
    let one = single(&file).cells();
    let mut tried = 0;
    for cell in (0..TALLY_CELLS).filter(|cell| !(40..48).contains(cell) && one[*cell] > 0) {
        let mut cells = [7; TALLY_CELLS];
        cells[cell] = u32::MAX - one[cell];
        let mut lent = Tally::of(&cells);
        assert_eq!(added(&file, &mut lent).1, 0);
        assert_eq!(lent.cells()[cell], u32::MAX);
        cells[cell] += 1;
        let mut lent = Tally::of(&cells);
        let (mut rows, mut plain) = (vec![9; 7 * MAX_RECORDS], vec![9; 7 * MAX_RECORDS]);
        assert_eq!(tally(&file, &mut rows, &mut lent), (run(&file, &mut plain), 19));
        assert_eq!((lent.cells(), rows), (cells, plain));
        tried += 1;
    }
    assert_eq!(tried, 19);
    // a largest is never past 32 bits
    let mut lent = Tally { largest: [u32::MAX; 8], ..Tally::default() };
    assert_eq!(added(&file, &mut lent).1, 0);
    assert_eq!(lent.largest, [u32::MAX; 8]);
}

/// A season is the sum, the largest for the largest, in any order.
#[test]
fn seasons() {
    let files = [busy(), vec![1, 0, 0], vec![1], file(&alone(0, INSERT, 63, 2)), file(&alone(3, LOOKUP, 1, 1)), busy()];
    let mut season = Tally::default();
    let mut backwards = Tally::default();
    files.iter().for_each(|file| assert_eq!(added(file, &mut season).1, 0));
    files.iter().rev().for_each(|file| assert_eq!(added(file, &mut backwards).1, 0));
    assert_eq!(season, backwards);
    assert_eq!((season.starts[2], season.unfinished[2], season.steps[2], season.largest[2]), (7, 1, 30, 9));
    assert_eq!((season.starts[1], season.refusals[1]), (7, 1));
    assert_eq!(season.average(LOOKUP), [9, 5]);
}

#[test]
fn averages() {
    let mut lent = Tally::default();
    (lent.steps[2], lent.yes[2], lent.no[2]) = (u32::MAX, u32::MAX, u32::MAX);
    (lent.steps[3], lent.yes[3], lent.no[3]) = (12, 5, 3);
    (lent.steps[4], lent.yes[4]) = (0, 9);
    (lent.steps[5], lent.unfinished[5]) = (8, 3);
    for (action, steps) in [(0, 2), (6, 10), (7, 2)] {
        (lent.steps[action], lent.yes[action]) = (steps, 4);
    }
    let expected = [[0, 1], [0, 1], [1, 2], [3, 2], [0, 1], [0, 1], [5, 2], [0, 1], [0, 1], [0, 1]];
    for (action, expected) in (0..).zip(expected) {
        assert_eq!(lent.average(action), expected, "action {action}");
    }
}

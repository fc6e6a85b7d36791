//! Version 2: depths beside the stations, worked out by hand from the paper's request a.

use reference::{history, list, merge, printed, run, RunReport};
use reference::{INSERT, JOIN, LOOKUP, REMOVE, SPLIT};

/// A version 2 schedule under construction.
#[derive(Clone, Default)]
struct Plan(Vec<u8>);

impl Plan {
    fn record(mut self, first: u8, second: u8, extra: u16) -> Self {
        self.0.extend([first, second]);
        self.0.extend(extra.to_be_bytes());
        self
    }

    fn steps(self, thread: u8, count: usize) -> Self {
        (0..count).fold(self, |plan, _| plan.record(16 * thread, 0, 0))
    }

    /// A start and its steps with nobody in between.
    fn alone(self, thread: u8, action: u8, station: u8, depth: u16, steps: usize) -> Self {
        self.record(16 * thread + action, station, depth)
            .steps(thread, steps)
    }

    fn file(&self) -> Vec<u8> {
        let count = u16::try_from(self.0.len() / 4).expect("a count of two bytes");
        [&[2], &count.to_be_bytes()[..], &self.0].concat()
    }

    fn run(&self) -> (RunReport, Vec<[u8; 14]>) {
        let mut rows = vec![0xAA; 7 * (self.0.len() / 4)];
        let report = run(&self.file(), &mut rows);
        let (written, rest) = rows.split_at(14 * report.rows as usize);
        assert!(rest.iter().all(|&byte| byte == 0xAA), "bytes after the rows were touched");
        (report, written.chunks(14).map(|row| row.try_into().unwrap()).collect())
    }

    fn refusal(&self) -> u64 {
        self.run().0.refusal
    }

    fn listed(&self) -> String {
        let mut text = [0xAA; 8192];
        let report = list(&self.file(), &mut text);
        let (written, rest) = text.split_at(report.length as usize);
        assert!(rest.iter().all(|&byte| byte == 0xAA), "bytes past the length were touched");
        String::from_utf8(written.to_vec()).unwrap()
    }
}

fn plan() -> Plan {
    Plan::default()
}

/// A row: thread, action, station, answer, depth; the set is 0.
fn row(thread: u8, action: u8, station: u8, answer: u8, depth: u16) -> [u8; 14] {
    let [high, low] = depth.to_be_bytes();
    [thread, action, station, answer, high, low, 0, 0, 0, 0, 0, 0, 0, 0]
}

/// The paper's printed run with a depth for each insert.
fn two_bases() -> Plan {
    plan()
        .alone(0, INSERT, 3, 640, 3)
        .alone(0, INSERT, 9, 1250, 3)
        .alone(0, SPLIT, 3, 0, 3)
}

#[test]
fn rows_and_room() {
    let one = plan().alone(0, INSERT, 9, 640, 3);
    let records = [2, 9, 2, 128, 0, 0, 0, 0, 0, 0, 0, 0, 0, 0, 0, 0];
    assert_eq!(one.file(), [&[2, 0, 4], &records[..]].concat());
    let (report, rows) = one.run();
    assert_eq!(rows, [row(0, 2, 9, 1, 0)]);
    assert_eq!((report.set, report.stored, report.used), (1 << 9, 1, 2));
    let mut short = [0xAA; 27];
    let refused = RunReport {
        refusal: 5,
        ..RunReport::default()
    };
    assert_eq!(run(&one.file(), &mut short), refused);
    assert_eq!(short, [0xAA; 27]);
    let mut text = [0xAA; 8191];
    let listed = list(&one.file(), &mut text);
    assert_eq!((listed.refusal, listed.length, text), (6, 0, [0xAA; 8191]));
    assert_eq!(one.listed(), "0 normal 9=640\nset 9=640\n");
}

#[test]
fn a_second_insert_says_no_and_replaces_the_depth() {
    let twice = plan().alone(0, INSERT, 9, 640, 3).alone(1, INSERT, 9, 7, 3);
    let looked = twice.clone().alone(2, LOOKUP, 9, 0, 1);
    assert_eq!(looked.run().1, [row(0, 2, 9, 1, 0), row(1, 2, 9, 0, 0), row(2, 1, 9, 1, 7)]);
    assert_eq!(looked.listed(), "0 normal 9=7\nset 9=7\n");
    let removed = twice.alone(0, REMOVE, 9, 0, 3).alone(0, LOOKUP, 9, 0, 1);
    assert_eq!(removed.run().1[2..], [row(0, 3, 9, 1, 0), row(0, 1, 9, 0, 0)]);
    let again = removed.alone(0, INSERT, 9, 0, 3).alone(0, LOOKUP, 9, 0, 1);
    assert_eq!(again.run().1[4..], [row(0, 2, 9, 1, 0), row(0, 1, 9, 1, 0)]);
    assert!(printed(&again.file()).ends_with("t0 lookup 9 yes 0\n0 normal 9=0\nset 9=0\nstored 1 used 5\n"));
}

#[test]
fn split_and_join_carry_depths() {
    assert_eq!(
        two_bases().listed(),
        "0 route 9\n1 normal 3=640\n1 normal 9=1250\nset 3=640 9=1250\n"
    );
    let joined = two_bases().alone(0, JOIN, 3, 0, 21);
    assert_eq!(joined.listed(), "0 neighbour 3=640 9=1250\nset 3=640 9=1250\n");
    let other = two_bases().alone(0, JOIN, 9, 0, 21);
    assert_eq!(other.run().1[3..], [row(0, 5, 9, 1, 0)]);
    assert_eq!(other.listed(), "0 neighbour 3=640 9=1250\nset 3=640 9=1250\n");
    let halfway = two_bases().alone(0, JOIN, 3, 0, 18);
    assert_eq!(
        halfway.listed(),
        "0 route 9\n1 main 3=640\n1 neighbour 3=640 9=1250\nset 3=640 9=1250\n"
    );
}

/// A join is killed by an insert of the station that its main holds: the depth is the insert's.
#[test]
fn an_insert_over_a_present_station_during_a_join() {
    let during = two_bases().alone(0, JOIN, 3, 0, 7).alone(1, INSERT, 3, 5, 9);
    assert_eq!(during.run().1[3..], [row(1, 2, 3, 0, 0)]);
    let after = during.steps(0, 9);
    assert_eq!(after.run().1[4..], [row(0, 5, 3, 6, 0)]);
    assert_eq!(
        after.listed(),
        "0 route 9\n1 normal 3=5\n1 neighbour 9=1250\nset 3=5 9=1250\n"
    );
}

/// A lookup that comes late to a base says the depth that it finds there.
#[test]
fn a_lookup_reports_the_depth_of_its_base() {
    let late = two_bases()
        .alone(1, LOOKUP, 3, 0, 1)
        .alone(0, JOIN, 3, 0, 21)
        .alone(0, INSERT, 3, 641, 3)
        .steps(1, 1);
    assert_eq!(late.run().1[4..], [row(0, 2, 3, 0, 0), row(1, 1, 3, 1, 640)]);
    let text = "t1 lookup 3 yes 640\n0 normal 3=641 9=1250\nset 3=641 9=1250\nstored 2 used 10\n";
    assert!(printed(&late.file()).ends_with(text));
}

/// The refusals of a record, several faults in one: the first of the order wins.
#[test]
fn record_refusals_in_order() {
    let busy = || plan().record(0x02, 5, 9999);
    assert_eq!(busy().refusal(), 0);
    let starts: [(u8, u8, u16, u64); 12] = [
        (0x42, 64, 10000, 7),
        (0x07, 64, 10000, 8),
        (0x02, 64, 10000, 9),
        (0x01, 64, 1, 9),
        (0x02, 63, 10000, 14),
        (0x02, 63, 65535, 14),
        (0x01, 63, 1, 10),
        (0x03, 63, 256, 10),
        (0x04, 63, 9999, 10),
        (0x05, 63, 10000, 10),
        (0x02, 63, 9999, 11),
        (0x05, 63, 0, 11),
    ];
    for (first, second, extra, number) in starts {
        assert_eq!(busy().record(first, second, extra).refusal(), number, "{first} {second} {extra}");
    }
    let steps: [(u8, u8, u16, u64); 7] = [
        (0x00, 1, 0, 10),
        (0x00, 0, 256, 10),
        (0x00, 0, 1, 10),
        (0x10, 0, 1, 10),
        (0x10, 1, 0, 10),
        (0x10, 0, 0, 12),
        (0x00, 0, 0, 0),
    ];
    for (first, second, extra, number) in steps {
        assert_eq!(busy().record(first, second, extra).refusal(), number, "{first} {second} {extra}");
    }
}

#[test]
fn file_refusals_in_order() {
    let faults: [(&[u8], u64); 8] = [
        (&[2, 0], 1),
        (&[4, 255, 255], 2),
        (&[2, 255, 255], 3),
        (&[2, 16, 1], 3),
        (&[2, 0, 1], 4),
        (&[2, 0, 1, 2, 9], 4),
        (&[2, 0, 1, 2, 9, 0, 0, 0], 4),
        (&[1, 0, 1, 2, 9, 0, 0], 4),
    ];
    for (file, number) in faults {
        let mut buffer = [0xAA; 8192];
        let refused = RunReport {
            refusal: number,
            ..RunReport::default()
        };
        assert_eq!(run(file, &mut buffer), refused);
        assert_eq!(list(file, &mut []).refusal, number);
        assert!(buffer.iter().all(|&byte| byte == 0xAA));
        assert_eq!(printed(file), format!("records 0 of 0 refusal {number}\n"));
    }
    assert_eq!(run(&[2, 0, 1, 2, 9, 0, 0], &mut [0; 6]).refusal, 5);
    assert_eq!(run(&[2, 0, 1, 2, 9, 0, 0], &mut [0; 7]).records, 1);
    assert_eq!(list(&[2, 0, 0], &mut [0; 4096]).refusal, 6);
}

/// History and Merge take version 1 alone.
#[test]
fn other_operations_refuse_version_2() {
    let file = two_bases().file();
    assert_eq!(history(&file, &mut [0; 99]).refusal, 2);
    assert_eq!(history(&[2, 255, 255], &mut []).refusal, 2);
    assert_eq!(merge(&file, &[1, 0, 0], &mut [0; 99]).refusal, 2);
    assert_eq!(merge(&[1, 0, 0], &[2, 0, 0], &mut [0; 99]).refusal, 2);
}

#[test]
fn the_longest_schedule() {
    let longest = (0..2048).fold(plan(), |plan, _| plan.alone(0, LOOKUP, 9, 0, 1));
    assert_eq!(longest.file().len(), 16387);
    let (report, rows) = longest.run();
    assert_eq!((report.refusal, report.records, rows.len()), (0, 4096, 2048));
    assert_eq!(longest.steps(0, 1).refusal(), 3);
}

#[test]
fn the_printed_run_with_depths() {
    let expected = "records 15 of 15 refusal 0\n\
                    t0 insert 3 yes\n\
                    t0 insert 9 yes\n\
                    t0 split 3 yes\n\
                    t1 lookup 3 yes 640\n\
                    0 route 9\n\
                    1 normal 3=640\n\
                    1 normal 9=1250\n\
                    set 3=640 9=1250\n\
                    stored 2 used 6\n";
    let run = two_bases().alone(1, LOOKUP, 3, 0, 2);
    assert_eq!(printed(&run.file()), expected);
}

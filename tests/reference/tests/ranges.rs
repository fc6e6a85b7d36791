//! Version 2: range queries, worked out by hand from the paper's request b and docs/RANGE.md; and random schedules, held
//! to the moment that docs/RANGE.md names.

use reference::{list, printed, run, Bench, Rows, RunReport, CAPACITY, FRAMES, STACK, STORES};
use reference::{INSERT, JOIN, LOOKUP, RANGE, REMOVE, SPLIT};

/// A version 2 schedule under construction.
#[derive(Clone, Default)]
struct Plan(Vec<u8>);

impl Plan {
    fn record(mut self, first: u8, second: u8, extra: u16) -> Self {
        self.0.extend([first, second]);
        self.0.extend(extra.to_be_bytes());
        self
    }

    fn steps(self, thread: u8, count: usize) -> Self {
        (0..count).fold(self, |plan, _| plan.record(16 * thread, 0, 0))
    }

    /// A start and its steps with nobody in between; `extra` is a depth or an upper end.
    fn alone(self, thread: u8, action: u8, station: u8, extra: u16, steps: usize) -> Self {
        self.record(16 * thread + action, station, extra)
            .steps(thread, steps)
    }

    fn file(&self) -> Vec<u8> {
        let count = u16::try_from(self.0.len() / 4).expect("a count of two bytes");
        [&[2], &count.to_be_bytes()[..], &self.0].concat()
    }

    fn run(&self) -> (RunReport, Vec<[u8; 14]>) {
        let mut rows = vec![0xAA; 7 * (self.0.len() / 4)];
        let report = run(&self.file(), &mut rows);
        let (written, rest) = rows.split_at(14 * report.rows as usize);
        assert!(rest.iter().all(|&byte| byte == 0xAA), "bytes after the rows were touched");
        (report, written.chunks(14).map(|row| row.try_into().unwrap()).collect())
    }

    fn refusal(&self) -> u64 {
        self.run().0.refusal
    }

    fn listed(&self) -> String {
        let mut text = [0xAA; 8192];
        let report = list(&self.file(), &mut text);
        String::from_utf8(text[..report.length as usize].to_vec()).unwrap()
    }

    /// The rows from this one on, numbers used and the listing.
    fn ends(&self, rows: &[[u8; 14]], from: usize, used: u64, text: &str) {
        let (report, all) = self.run();
        assert_eq!((&all[from..], report.refusal, report.used), (rows, 0, used));
        assert_eq!(self.listed(), text);
    }
}

fn plan() -> Plan {
    Plan::default()
}

fn bits(stations: &[u8]) -> u64 {
    stations.iter().fold(0, |set, station| set | 1 << station)
}

/// The row of an update, a split or a join: depth and set are 0.
fn row(thread: u8, action: u8, station: u8, answer: u8) -> [u8; 14] {
    [thread, action, station, answer, 0, 0, 0, 0, 0, 0, 0, 0, 0, 0]
}

/// The row of a query: the set found, in its eight bytes.
fn found(thread: u8, station: u8, stations: &[u8]) -> [u8; 14] {
    let mut found = row(thread, RANGE, station, u8::from(!stations.is_empty()));
    found[6..].copy_from_slice(&bits(stations).to_be_bytes());
    found
}

/// Two bases, 3 and 9: 12 records and three rows.
fn two_bases() -> Plan {
    plan()
        .alone(0, INSERT, 3, 640, 3)
        .alone(0, INSERT, 9, 9999, 3)
        .alone(0, SPLIT, 3, 0, 3)
}

const BOTH: &str = "0 route 9\n1 range 3=640\n1 range 9=9999\nset 3=640 9=9999\n";
const LEFT: &str = "0 route 9\n1 range 3=640\n1 normal 9=9999\nset 3=640 9=9999\n";

#[test]
fn alone() {
    let all = |steps| two_bases().alone(0, RANGE, 0, 63, steps);
    all(15).ends(&[], 3, 8, BOTH);
    all(16).ends(&[found(0, 0, &[3, 9])], 3, 8, BOTH);
    let one = |lower, upper| two_bases().alone(1, RANGE, lower, upper, 7);
    one(3, 3).ends(&[found(1, 3, &[3])], 3, 7, LEFT);
    one(0, 2).ends(&[found(1, 0, &[])], 3, 7, LEFT);
    // the base of 4 to 8 has no station at or over 8, so the next one is asked too
    two_bases().alone(1, RANGE, 4, 8, 14).ends(&[found(1, 4, &[])], 3, 8, BOTH);
    plan().alone(3, RANGE, 63, 63, 5).ends(&[found(3, 63, &[])], 0, 2, "0 range -\nset -\n");
    let ends = plan().alone(0, INSERT, 0, 0, 3).alone(0, INSERT, 63, 0, 3);
    ends.alone(0, RANGE, 0, 63, 5)
        .ends(&[found(0, 0, &[0, 63])], 2, 4, "0 range 0=0 63=0\nset 0=0 63=0\n");
}

#[test]
fn piggyback() {
    // t1 has the upper base only; t2 asks from below it to the same end, and takes its ends and store
    let rides = two_bases().alone(1, RANGE, 5, 9, 5).alone(2, RANGE, 0, 9, 14);
    rides.ends(&[found(2, 0, &[3, 9])], 3, 8, BOTH);
    rides.steps(1, 4).ends(&[found(2, 0, &[3, 9]), found(1, 5, &[9])], 3, 8, BOTH);
    // an end over the store's: t2 helps, then asks for itself
    let helps = two_bases().alone(1, RANGE, 5, 9, 5).alone(2, RANGE, 0, 10, 31);
    helps.ends(&[found(2, 0, &[3, 9])], 3, 10, BOTH);
}

#[test]
fn helped_by_an_insert() {
    let blocked = |steps| two_bases().alone(1, RANGE, 0, 20, 5).alone(2, INSERT, 4, 7, steps);
    blocked(20).ends(&[], 3, 8, BOTH);
    let text = "0 route 9\n1 normal 3=640 4=7\n1 range 9=9999\nset 3=640 4=7 9=9999\n";
    blocked(21).ends(&[row(2, INSERT, 4, 1)], 3, 9, text);
    // the query's set is that of the moment when the insert's help ended
    let both = blocked(21).steps(1, 4);
    both.ends(&[row(2, INSERT, 4, 1), found(1, 0, &[3, 9])], 3, 9, text);
}

#[test]
fn splits_and_joins_say_what_blocks_them() {
    let joins = two_bases().alone(1, RANGE, 0, 20, 5).alone(2, JOIN, 3, 0, 3).alone(2, JOIN, 9, 0, 7);
    joins.ends(&[row(2, JOIN, 3, 3), row(2, JOIN, 9, 5)], 3, 7, LEFT);
    let two = plan().alone(0, INSERT, 3, 640, 3).alone(0, INSERT, 9, 9999, 3);
    let split = two.alone(1, RANGE, 0, 63, 3).alone(2, SPLIT, 3, 0, 2);
    split.ends(&[row(2, SPLIT, 3, 3)], 2, 4, "0 range 3=640 9=9999\nset 3=640 9=9999\n");
    // once the result is set they do their work
    let after = two_bases().alone(1, RANGE, 0, 63, 16).alone(2, JOIN, 3, 0, 21);
    after.ends(&[found(1, 0, &[3, 9]), row(2, JOIN, 3, 1)], 3, 11, "0 neighbour 3=640 9=9999\nset 3=640 9=9999\n");
}

#[test]
fn over_a_route_that_a_join_cut_out() {
    let late = two_bases().alone(1, RANGE, 0, 63, 1).alone(0, JOIN, 9, 0, 20).steps(1, 7);
    late.ends(&[row(0, JOIN, 9, 1), found(1, 0, &[3, 9])], 3, 10, "0 range 3=640 9=9999\nset 3=640 9=9999\n");
}

#[test]
fn depths_stay_beside_their_stations() {
    let looked = two_bases().alone(1, RANGE, 0, 63, 16).alone(2, LOOKUP, 9, 0, 2);
    let mut lookup = row(2, LOOKUP, 9, 1);
    lookup[4..6].copy_from_slice(&9999u16.to_be_bytes());
    looked.ends(&[found(1, 0, &[3, 9]), lookup], 3, 8, BOTH);
}

#[test]
fn refusals_in_order() {
    let busy = || plan().record(0x06, 3, 3);
    let starts: [(u8, u8, u16, u64); 14] = [
        (0x46, 64, 64, 7),
        (0x07, 64, 64, 8),
        (0x0F, 3, 3, 8),
        (0x06, 64, 64, 9),
        (0x16, 255, 0, 9),
        (0x06, 3, 64, 15),
        (0x16, 3, 2, 15),
        (0x06, 3, 2, 15),
        (0x16, 0, 256, 15),
        (0x16, 63, 65535, 15),
        (0x06, 3, 3, 11),
        (0x06, 0, 63, 11),
        (0x16, 0, 63, 0),
        (0x16, 63, 63, 0),
    ];
    for (first, second, extra, number) in starts {
        assert_eq!(busy().record(first, second, extra).refusal(), number, "{first} {second} {extra}");
    }
    assert_eq!(busy().record(0x00, 0, 1).refusal(), 10);
    assert_eq!(busy().record(0x10, 0, 0).refusal(), 12);
    let version_1 = [1, 0, 1, 0x06, 3];
    assert_eq!(run(&version_1, &mut [0; 2]).refusal, 8);
}

/// 64 queries alone take the stores; the next one is refused at its swap, or with 13 where no number is left either.
#[test]
fn stores_and_numbers_run_out() {
    let all = (0..STORES).fold(plan(), |plan, _| plan.alone(0, RANGE, 0, 63, 5));
    let (report, rows) = all.run();
    assert_eq!((report.refusal, report.used, rows.len()), (0, 65, STORES));
    let (report, _) = all.clone().alone(1, RANGE, 0, 63, 5).run();
    assert_eq!((report.refusal, report.records, report.used), (16, 64 * 6 + 3, 65));
    let full = (65..CAPACITY).fold(all, |plan, _| plan.alone(0, INSERT, 9, 0, 3));
    assert_eq!(full.run().0.used, 256);
    let (report, _) = full.alone(1, RANGE, 0, 63, 5).run();
    assert_eq!((report.refusal, report.records), (13, 64 * 6 + 191 * 4 + 3));
    // under a parent: 65 and 67
    for (station, steps) in [(3, 7), (9, 8)] {
        let one = |plan: Plan| plan.alone(0, RANGE, station, station.into(), steps);
        let all = (0..STORES).fold(two_bases(), |plan, _| one(plan));
        assert_eq!((all.run().0.rows, all.run().0.used), (67, 70));
        let (report, _) = one(all).run();
        assert_eq!((report.refusal, report.records), (16, 12 + 65 * (1 + steps as u64) - 3));
    }
}

/// t1, t2 and t3 hold a base each; t0 needs the first of them and helps three deep.
#[test]
fn four_frames() {
    let mut bench = Bench::<Rows>::new();
    let mut alone = |thread: u8, action: u8, station: u8, extra: u16, stop: u8| {
        assert_eq!(bench.record(16 * thread + action, station, extra), Ok(None));
        for _ in 0..100 {
            let row = bench.record(16 * thread, 0, 0).expect("a step");
            if row.is_some() || (stop > 0 && bench.place(thread.into()) == stop) {
                break;
            }
        }
    };
    for station in [10, 20, 30, 40] {
        alone(0, INSERT, station, 0, 0);
    }
    for station in [10, 10, 30] {
        alone(0, SPLIT, station, 0, 0);
    }
    for (thread, station) in [(1, 20), (2, 30), (3, 40)] {
        alone(thread, RANGE, station, 63, 70);
    }
    assert_eq!(bench.record(0x06, 0, 63), Ok(None));
    let mut most = 0;
    let finished = (0..200).find_map(|_| {
        most = most.max(bench.frames(0).len());
        bench.record(0, 0, 0).expect("a step")
    });
    assert_eq!((finished, most), (Some([0, RANGE, 0, 1]), FRAMES));
    assert_eq!(bench.found([0, RANGE, 0, 1]), bits(&[10, 20, 30, 40]));
}

#[test]
fn the_printed_run_with_a_query() {
    let expected = "records 29 of 29 refusal 0\n\
                    t0 insert 3 yes\n\
                    t0 insert 9 yes\n\
                    t0 split 3 yes\n\
                    t1 range 0 yes\n\
                    0 route 9\n\
                    1 range 3=640\n\
                    1 range 9=9999\n\
                    set 3=640 9=9999\n\
                    stored 2 used 8\n";
    assert_eq!(printed(&two_bases().alone(1, RANGE, 0, 63, 16).file()), expected);
    let none = two_bases().alone(1, RANGE, 0, 2, 7);
    assert!(printed(&none.file()).contains("t1 range 0 no\n0 route 9\n"));
}

/// Random numbers, the same in every run of the tests.
struct Dice(u64);

impl Dice {
    fn below(&mut self, limit: usize) -> usize {
        self.0 ^= self.0 << 13;
        self.0 ^= self.0 >> 7;
        self.0 ^= self.0 << 17;
        (self.0 >> 11) as usize % limit
    }
}

/// A random schedule on the stations from `lowest` on. At each moment: the bounds of docs/RANGE.md, numbers that rise
/// in every stack, results that stay; and of each query, that its row is right just after its store was filled, which
/// was after its first step. Hands back how many queries finished, and how many of them another thread had filled.
fn random(dice: &mut Dice, length: usize) -> (usize, usize) {
    let (lowest, threads, burst) = (dice.below(54), 2 + dice.below(3), 1 + dice.below(12));
    let mix = [[2, 4, 6, 8, 20], [1, 2, 3, 5, 6], [1, 8, 12, 20, 24]][dice.below(3)];
    let mut bench = Bench::<Rows>::new();
    let mut set = 0u64;
    // of each store, the moment when it was filled, by whom, and the set then
    let mut filled: Vec<Option<(usize, usize, u64, u64)>> = vec![None; STORES];
    let mut open = [(0u8, 0u8, 0u16, usize::MAX); 4];
    let (mut finished, mut helped, mut thread) = (0, 0, 0);
    for now in 1..=length {
        if dice.below(burst) == 0 {
            thread = dice.below(threads);
        }
        let number = 16 * thread as u8;
        if bench.place(thread) == 0 {
            let at = dice.below(mix[4]);
            let action = [INSERT, REMOVE, SPLIT, JOIN, RANGE][mix.iter().position(|&limit| at < limit).unwrap()];
            let station = lowest + dice.below(10);
            let upper = [63, station + dice.below(64 - station), (station + dice.below(8)).min(63)][dice.below(3)];
            let extra = if action == RANGE { upper as u16 } else { 0 };
            if bench.record(number + action, station as u8, extra) == Ok(None) {
                open[thread] = (action, station as u8, extra, usize::MAX);
            }
            continue;
        }
        let (place, store) = (bench.place(thread), bench.frames(thread).last().and_then(|frame| frame.store));
        let unset = store.is_some_and(|store| bench.result(store).is_none());
        let row = match bench.record(number, 0, 0) {
            Ok(row) => row,
            Err(13 | 16) => return (finished, helped),
            Err(number) => panic!("a step was refused with {number}"),
        };
        let (action, station, upper, first) = &mut open[thread];
        *first = (*first).min(now);
        if place == 81 && unset {
            let store = store.expect("81 has a store");
            let result = bench.result(store).expect("81 fills the store");
            filled[usize::from(store)] = Some((now, thread, set, result));
        }
        match row {
            Some([_, INSERT, station, _]) => set |= 1 << station,
            Some([_, REMOVE, station, _]) => set &= !(1 << station),
            Some(row @ [.., answer]) if *action == RANGE => {
                let (then, by, set, _) = filled[usize::from(store.unwrap())].expect("a result that is set");
                let asked = set & (u64::MAX >> (63 - *upper) & u64::MAX << *station);
                assert_eq!((bench.found(row), answer == 1), (asked, asked != 0));
                assert!(*first <= then && then <= now, "the store was filled before the query's first step");
                finished += 1;
                helped += usize::from(by != thread);
            }
            _ => {}
        }
        assert_eq!(bench.set(), set);
        for frames in (0..4).map(|thread| bench.frames(thread)) {
            assert!(frames.len() <= FRAMES);
            for entries in frames.iter().flat_map(|frame| [frame.stack.entries(), frame.backup.entries()]) {
                assert!(entries.len() <= STACK && entries.is_sorted_by(|a, b| a < b));
            }
        }
        for (store, filled) in filled.iter().enumerate() {
            assert_eq!(bench.result(store as u8), filled.map(|(.., result)| result));
        }
    }
    (finished, helped)
}

#[test]
fn random_schedules() {
    let mut dice = Dice(3);
    let (mut finished, mut helped) = (0, 0);
    for round in 0..1500 {
        let (all, others) = random(&mut dice, [150, 600, 2000][round % 3]);
        finished += all;
        helped += others;
    }
    assert!(finished > 10_000 && helped > 500, "only {finished} queries finished, {helped} of them helped");
}

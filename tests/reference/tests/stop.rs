//! Version 3: the stop of joins, worked out by hand from the paper's request h and docs/PLACES.md; and random schedules, in
//! which the count is held to the searches between their 4 and their 5 at every moment.

use reference::{list, printed, run, run_one_writer, AnyRows, Bench, RunReport, StopRows};
use reference::{INSERT, JOIN, LOOKUP, RANGE, REMOVE, SPLIT, STOP_PLACES};

/// A schedule under construction, of version 2 or 3.
#[derive(Clone)]
struct Plan(u8, Vec<u8>);

impl Plan {
    fn record(mut self, first: u8, second: u8, extra: u16) -> Self {
        self.1.extend([first, second]);
        self.1.extend(extra.to_be_bytes());
        self
    }

    fn steps(self, thread: u8, count: usize) -> Self {
        (0..count).fold(self, |plan, _| plan.record(16 * thread, 0, 0))
    }

    /// A start and its steps with nobody in between.
    fn alone(self, thread: u8, action: u8, station: u8, steps: usize) -> Self {
        self.record(16 * thread + action, station, 0).steps(thread, steps)
    }

    fn asks(self, thread: u8, lower: u8, upper: u8, steps: usize) -> Self {
        self.record(16 * thread + RANGE, lower, upper.into()).steps(thread, steps)
    }

    /// A mark among the rows: t2 looks up station 0, the left child of the first route.
    fn mark(self) -> Self {
        self.alone(2, LOOKUP, 0, 2)
    }

    fn file(&self) -> Vec<u8> {
        let count = u16::try_from(self.1.len() / 4).expect("a count of two bytes");
        [&[self.0], &count.to_be_bytes()[..], &self.1].concat()
    }

    fn run(&self) -> (RunReport, Vec<[u8; 4]>) {
        let mut rows = vec![0xAA; 7 * (self.1.len() / 4)];
        let report = run(&self.file(), &mut rows);
        let (written, rest) = rows.split_at(14 * report.rows as usize);
        assert!(rest.iter().all(|&byte| byte == 0xAA), "bytes after the rows were touched");
        (report, written.chunks(14).map(|row| row[..4].try_into().unwrap()).collect())
    }

    fn listed(&self) -> String {
        let mut text = [0xAA; 8192];
        let report = list(&self.file(), &mut text);
        String::from_utf8(text[..report.length as usize].to_vec()).unwrap()
    }

    /// The rows after the chain's, with what threads, actions and stations they are of.
    fn ends(&self, from: usize, rows: &[[u8; 4]], used: u64) {
        let (report, all) = self.run();
        assert_eq!((&all[from..], report.refusal, report.used), (rows, 0, used));
    }
}

/// A chain of `routes` routes with keys 1, 2, .., and the base of the last station at its end, the right child of the last:
/// t0 inserts 0 and, for each station after it, inserts that and splits its base.
fn chain(version: u8, routes: u8) -> Plan {
    let first = Plan(version, Vec::new()).alone(0, INSERT, 0, 3);
    (1..=routes).fold(first, |plan, station| {
        let reads = usize::from(station - 1);
        // alone, below `reads` routes: 1, the routes, 3 and the swap of a right child; beyond seven routes, 4 and 5
        let steps = if reads == 0 { 3 } else { 5 + reads + if version == 3 && reads > 7 { 2 } else { 0 } };
        plan.alone(0, INSERT, station, steps).alone(0, SPLIT, station, steps)
    })
}

/// Rows of `chain`.
fn built(routes: u8) -> usize {
    1 + 2 * usize::from(routes)
}

const MARK: [u8; 4] = [2, LOOKUP, 0, 1];

/// crates/definitions/proofs/StopRuns.antt, in its order.
#[test]
fn the_table() {
    let counted = chain(3, 8)
        .alone(1, LOOKUP, 8, 10)
        .alone(0, JOIN, 3, 6)
        .mark()
        .steps(0, 1)
        .steps(1, 1)
        .alone(1, LOOKUP, 7, 10)
        .mark()
        .steps(1, 1)
        .alone(1, LOOKUP, 6, 7)
        .mark()
        .steps(1, 1)
        .alone(1, INSERT, 8, 14)
        .mark()
        .steps(1, 1)
        .asks(1, 7, 7, 13)
        .mark()
        .steps(1, 1)
        .alone(1, LOOKUP, 8, 9)
        .asks(3, 7, 7, 9)
        .alone(0, JOIN, 3, 7);
    let rows = [
        MARK,
        [0, JOIN, 3, 7],
        [1, LOOKUP, 8, 1],
        MARK,
        [1, LOOKUP, 7, 1],
        MARK,
        [1, LOOKUP, 6, 1],
        MARK,
        [1, INSERT, 8, 0],
        MARK,
        [1, RANGE, 7, 1],
    ];
    counted.ends(built(8), &rows, 36);
    assert!(counted.listed().contains("8 range 7=0\n"));
    let off = chain(2, 8)
        .alone(1, LOOKUP, 8, 8)
        .mark()
        .steps(1, 1)
        .asks(1, 7, 7, 13)
        .mark()
        .steps(1, 1)
        .alone(1, LOOKUP, 8, 8)
        .alone(0, JOIN, 3, 7);
    off.ends(built(8), &[MARK, [1, LOOKUP, 8, 1], MARK, [1, RANGE, 7, 1]], 35);
    let pair = |version| Plan(version, Vec::new()).alone(0, INSERT, 3, 3).alone(0, INSERT, 9, 3).alone(0, SPLIT, 3, 3);
    pair(3).alone(0, JOIN, 3, 21).ends(3, &[], 9);
    pair(3).alone(0, JOIN, 3, 22).ends(3, &[[0, JOIN, 3, 1]], 9);
    pair(2).alone(0, JOIN, 3, 21).ends(3, &[[0, JOIN, 3, 1]], 9);
    for (number, record) in [(8, [7, 3, 0, 3]), (14, [2, 3, 39, 16]), (15, [6, 3, 0, 2])] {
        let file = [&[3, 0, 1][..], &record].concat();
        assert_eq!(run(&file, &mut [0; 7]).refusal, number);
    }
}

/// A lookup below `routes` routes takes so many steps, and its row comes at the last.
fn lookup_takes(version: u8, routes: u8, steps: usize) {
    let plan = |steps| chain(version, routes).alone(1, LOOKUP, routes, steps);
    let used = plan(0).run().0.used;
    plan(steps - 1).ends(built(routes), &[], used);
    plan(steps).ends(built(routes), &[[1, LOOKUP, routes, 1]], used);
}

#[test]
fn two_steps_more_from_eight_routes_on() {
    for routes in 1..=12 {
        let steps = 1 + usize::from(routes);
        lookup_takes(2, routes, steps);
        lookup_takes(3, routes, steps + if routes < 8 { 0 } else { 2 });
    }
}

/// The bench after a plan, to go on with.
fn bench_of(plan: &Plan) -> Bench<StopRows> {
    let mut bench = Bench::new();
    for record in plan.1.chunks(4) {
        bench.record(record[0], record[1], u16::from_be_bytes([record[2], record[3]])).expect("a good record");
    }
    bench
}

/// Steps a thread until it is at a place, or to its row.
fn until(bench: &mut Bench<StopRows>, thread: u8, place: u8) -> Option<[u8; 4]> {
    (0..200).find_map(|_| {
        if place > 0 && bench.place(thread.into()) == place {
            return Some(None);
        }
        bench.record(16 * thread, 0, 0).expect("a step").map(Some)
    })?
}

#[test]
fn four_are_counted_and_a_join_waits_for_all_of_them() {
    let mut bench = bench_of(&chain(3, 9));
    for (thread, action) in [(0, INSERT), (1, REMOVE), (2, LOOKUP), (3, SPLIT)] {
        assert_eq!(bench.count(), thread);
        assert_eq!(bench.record(16 * thread + action, 9, 0), Ok(None));
        until(&mut bench, thread, 4);
        assert_eq!(bench.count(), thread);
        assert_eq!(bench.record(16 * thread, 0, 0), Ok(None));
        assert_eq!(bench.place(thread.into()), 2);
    }
    assert_eq!(bench.count(), 4);
    // one after another is taken off at 5; a lookup ends there
    for (thread, left, place) in [(0, 3, 3), (1, 2, 3), (2, 1, 0), (3, 0, 3)] {
        until(&mut bench, thread, 5);
        assert_eq!(bench.count(), left + 1);
        let row = bench.record(16 * thread, 0, 0).expect("a step");
        assert_eq!((row, bench.count()), ((thread == 2).then_some([2, LOOKUP, 9, 1]), left));
        assert_eq!(bench.place(thread.into()), place);
        if thread == 2 {
            // t2 is idle: its join of a base high up sees the one that is left
            assert_eq!(bench.record(0x25, 3, 0), Ok(None));
            assert_eq!(until(&mut bench, 2, 0), Some([2, JOIN, 3, 7]));
        }
    }
    assert_eq!(bench.record(0x25, 3, 0), Ok(None));
    assert_eq!(until(&mut bench, 2, 0), Some([2, JOIN, 3, 1]));
}

#[test]
fn a_join_that_is_past_19_goes_on() {
    let mut bench = bench_of(&chain(3, 8));
    for (stop, answer) in [(19, 7), (20, 1)] {
        assert_eq!(bench.record(0x05, 3, 0), Ok(None));
        until(&mut bench, 0, stop);
        assert_eq!(bench.record(0x11, 8, 0), Ok(None));
        until(&mut bench, 1, 5);
        assert_eq!((until(&mut bench, 0, 0), bench.count()), (Some([0, JOIN, 3, answer]), 1));
        assert_eq!(until(&mut bench, 1, 0), Some([1, LOOKUP, 8, 1]));
        assert_eq!(bench.count(), 0);
    }
}

#[test]
fn a_join_below_eight_routes_counts_itself_and_is_off_again_at_19() {
    chain(3, 9).alone(0, JOIN, 9, 14).ends(built(9), &[], 38);
    let mut bench = bench_of(&chain(3, 9).record(0x05, 9, 0));
    until(&mut bench, 0, 5);
    assert_eq!(bench.count(), 1);
    assert_eq!(until(&mut bench, 0, 0), Some([0, JOIN, 9, 1]));
    assert_eq!(bench.count(), 0);
}

/// An update that is blocked at 3 was taken off before, and its next search is counted once more.
#[test]
fn a_blocked_update_is_counted_once_in_each_search() {
    let mut bench = bench_of(&chain(3, 9));
    // a query's base is in the way: the insert helps it
    assert_eq!(bench.record(0x16, 9, 63), Ok(None));
    until(&mut bench, 1, 70);
    until(&mut bench, 1, 81);
    assert_eq!(bench.record(0x02, 9, 5), Ok(None));
    let (mut searches, mut counts) = (0, Vec::new());
    let row = (0..200).find_map(|_| {
        searches += usize::from(bench.place(0) == 1);
        let place = bench.place(0);
        let row = bench.record(0, 0, 0).expect("a step");
        if STOP_PLACES.contains(&place) {
            counts.push((place, bench.count()));
        }
        row
    });
    assert_eq!((row, searches), (Some([0, INSERT, 9, 0]), 2));
    assert_eq!(counts, [(4, 1), (5, 0), (4, 1), (5, 0)]);
}

/// What the program writes of a stopped join: no.
#[test]
fn the_printed_run_of_a_stopped_join() {
    let text = printed(&chain(3, 8).alone(1, LOOKUP, 8, 10).alone(0, JOIN, 3, 7).steps(1, 1).file());
    assert!(text.starts_with("records 172 of 172 refusal 0\nt0 insert 0 yes\n"), "{text}");
    assert!(text.contains("\nt0 join 3 no\nt1 lookup 8 yes 0\n0 route 1\n"), "{text}");
}

#[test]
fn refusals_by_version() {
    let refusal = |file: &[u8]| run(file, &mut [0; 70]).refusal;
    assert_eq!([[3, 0, 0], [4, 0, 0], [0, 0, 0]].map(|file| refusal(&file)), [0, 2, 2]);
    assert_eq!(refusal(&[3, 0]), 1);
    assert_eq!(refusal(&[3, 0x10, 1]), 3);
    assert_eq!(refusal(&[3, 0, 1, 2, 9]), 4);
    assert_eq!(run(&[3, 0, 1, 2, 9, 0, 0], &mut [0; 6]).refusal, 5);
    assert_eq!(list(&[3, 0, 0], &mut [0; 8191]).refusal, 6);
    // the one-writer run takes no version 3
    assert_eq!(run_one_writer(&[3, 0, 0], &mut []).refusal, 2);
    assert_eq!(run_one_writer(&[3, 0xFF, 0xFF, 1], &mut []).refusal, 2);
    assert_eq!(run_one_writer(&[3, 0], &mut []).refusal, 1);
}

/// Random numbers, the same in every run of the tests.
struct Dice(u64);

impl Dice {
    fn below(&mut self, limit: usize) -> usize {
        self.0 ^= self.0 << 13;
        self.0 ^= self.0 >> 7;
        self.0 ^= self.0 << 17;
        (self.0 >> 11) as usize % limit
    }
}

/// A random schedule of a version on a chain of routes. At each moment: who is between 4 and 5, read off the places at
/// which steps were taken, is what the count says; a join leaves 19 by the count. Hands back the greatest count and how
/// many joins were stopped; both are 0 with the stop off, and no thread is at 4, 5 or 19.
fn random(dice: &mut Dice, version: u8, length: usize) -> (u8, usize) {
    let mut bench = Bench::<AnyRows>::of(version);
    let levels = 9 + dice.below(10) as u8;
    let finish = |bench: &mut Bench<AnyRows>, thread: u8| while bench.record(16 * thread, 0, 0).expect("a step").is_none() {};
    for station in 0..levels {
        for action in [INSERT, SPLIT] {
            assert_eq!(bench.record(action, station, 0), Ok(None));
            finish(&mut bench, 0);
        }
    }
    let burst = 1 + dice.below(12);
    let (mut between, mut most, mut stopped, mut thread) = ([false; 4], 0, 0, 0);
    for _ in 0..length {
        if dice.below(burst) == 0 {
            thread = dice.below(4);
        }
        let (number, place, count) = (16 * thread as u8, bench.place(thread), bench.count());
        if place == 0 {
            let action = [LOOKUP, LOOKUP, LOOKUP, INSERT, REMOVE, SPLIT, JOIN, RANGE][dice.below(8)];
            let above = dice.below(if action == JOIN { usize::from(levels) } else { 4 });
            let station = levels - 1 - above as u8;
            bench.record(number + action, station, if action == RANGE { 63 } else { 0 }).expect("a good start");
            continue;
        }
        let row = match bench.record(number, 0, 0) {
            Ok(row) => row,
            Err(13 | 16) => break,
            Err(number) => panic!("a step was refused with {number}"),
        };
        match place {
            4 => between[thread] = true,
            5 => between[thread] = false,
            19 => assert_eq!(row.map_or(0, |row| row[3]), if count == 0 { 0 } else { 7 }),
            _ => {}
        }
        stopped += usize::from(place == 19 && row.is_some());
        assert_eq!(usize::from(bench.count()), between.iter().filter(|&&is| is).count());
        most = most.max(bench.count());
        assert!(version == 3 || (0..4).all(|thread| !STOP_PLACES.contains(&bench.place(thread))));
    }
    for thread in 0..4 {
        while bench.place(thread) != 0 {
            if bench.record(16 * thread as u8, 0, 0).is_err() {
                return (most, stopped);
            }
        }
    }
    assert_eq!(bench.count(), 0, "all threads are idle");
    (most, stopped)
}

#[test]
fn random_schedules() {
    let mut dice = Dice(5);
    for version in [2, 3] {
        let (mut most, mut stopped) = (0, 0);
        for round in 0..1500 {
            let (count, joins) = random(&mut dice, version, [60, 200, 600][round % 3]);
            most = most.max(count);
            stopped += joins;
        }
        if version == 2 {
            assert_eq!((most, stopped), (0, 0));
        } else {
            assert!(most == 4 && stopped > 500, "a count of {most}, {stopped} joins stopped");
        }
    }
}

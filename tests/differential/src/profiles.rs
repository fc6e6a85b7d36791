//! Files for the one-writer run: thread 0 alone writes, up to a barred record at any position; and what is promised of such
//! a run, checked of the reference at every record.

use crate::plan::Plan;
use crate::random;
use crate::rng::Rng;
use crate::systematic::{faulty_files, grow_by};
use reference::{
    run, run_one_writer, sizes, Bench, Counter, Depths, NoDepths, OneWrites, RunReport, Rows, Silent, ACTIONS, DEEPEST,
    INSERT, JOIN, LOOKUP, MAX_RECORDS, PLACES, RANGE, REMOVE, SPLIT, STATIONS, STEP, THREADS,
};
use std::collections::BTreeMap;

/// The number of a barred record.
const BARRED: u8 = 24;

/// The most steps of an insert or a remove.
const STEPS_MOST: usize = 68;

/// Steps that some insert or remove must take, or the bound was never near.
const STEPS_NEAR: usize = 60;

/// Where a thread comes only after a lost swap, to kill a join, or to stand down.
const NEVER: [u8; 5] = [15, 16, 36, 37, 38];

/// Faults of one record: the first number refuses it, whatever the second says.
const PAIRS: [(u8, u8); 7] =
    [(7, BARRED), (8, BARRED), (BARRED, 9), (BARRED, 11), (BARRED, 10), (BARRED, 14), (BARRED, 15)];

/// The pairs that need the last two bytes of a record, which version 1 has not.
const DEEP_PAIRS: usize = 4;

/// What splits and joins say, and where.
const ANSWERS: [(u8, u8, &[u8]); 4] =
    [(SPLIT, 1, &[10, 11, 13]), (SPLIT, 2, &[3]), (JOIN, 1, &[51]), (JOIN, 2, &[3])];

#[derive(Default)]
pub struct Profiles {
    reached: BTreeMap<String, u64>,
    /// The most steps that an insert or a remove took.
    steps: usize,
}

/// A record that may be barred, put into a file.
#[derive(Clone, Copy)]
struct Intruder {
    first: u8,
    second: u8,
    extra: u16,
}

impl Profiles {
    fn reach(&mut self, version: u8, what: &str) {
        *self.reached.entry(format!("version {version}, one writer: {what}")).or_default() += 1;
    }

    /// Hands every systematic file to `emit`: schedules of each shape, with a barred record at each position, and with
    /// records that have a second fault; faulty headers.
    pub fn each(emit: &mut impl FnMut(&'static str, Vec<u8>)) {
        for version in [1, 2] {
            for shape in 0..6 {
                let plan = small(version, shape);
                emit("one writer", plan.file());
                let barred = barred(version);
                for at in 0..=plan.count() {
                    let (thread, action) = barred[at % barred.len()];
                    let intruder = Intruder {
                        first: 16 * thread + action,
                        second: 9,
                        extra: if action == RANGE { 20 } else { 0 },
                    };
                    emit("one writer, barred", with(&plan.file(), at, intruder));
                }
            }
            let plan = small(version, 3);
            for intruder in faulty() {
                // before the first record every thread is idle, at the last one thread 1 is busy
                for at in [0, 1, plan.count() - 1, plan.count()] {
                    emit("one writer, faulty", with(&plan.file(), at, intruder));
                }
            }
            for file in faulty_files(version) {
                emit("one writer, fault", file);
            }
        }
        for file in faulty_files(3) {
            emit("one writer, version 3", file);
        }
    }

    /// A random file, in most of which there is a barred or a faulty record somewhere.
    pub fn random(rng: &mut Rng) -> (&'static str, Vec<u8>) {
        let file = random::one_writer(rng);
        let count = (file.len() - 3) / sizes(file[0])[0];
        if count == MAX_RECORDS || rng.once_in(3) {
            return ("one writer", file);
        }
        let first = match rng.below(8) {
            0 => rng.byte(),
            1 => 16 * rng.below(4) as u8 + LOOKUP,
            2 => 16 * rng.below(4) as u8 + RANGE,
            _ => 16 * (1 + rng.below(3) as u8) + INSERT + rng.below(4) as u8,
        };
        let intruder = Intruder {
            first,
            second: rng.pick(&[0, 9, 63, 64, 255]),
            extra: rng.pick(&[0, 0, 0, 1, 20, 9999, 10000, 65535]),
        };
        ("one writer, intruder", with(&file, rng.below(count + 1), intruder))
    }

    /// Checks what is promised of the one-writer run of a file, of the reference.
    pub fn check(&mut self, file: &[u8]) -> Result<(), String> {
        let (report, rows) = ran(file, run_one_writer);
        if file.len() > 2 && file[0] == 3 {
            let refused = report == RunReport { refusal: 2, ..RunReport::default() };
            let untouched = rows.iter().all(|&byte| byte == 0xA5);
            return (refused && untouched).then_some(()).ok_or_else(|| format!("version 3 comes to {report:?}"));
        }
        self.as_run(file, &report, &rows)?;
        if (1..=5).contains(&report.refusal) {
            return Ok(());
        }
        if file[0] == 1 {
            self.promised::<NoDepths>(file, &report)
        } else {
            self.promised::<Rows>(file, &report)
        }
    }

    fn promised<D: Depths>(&mut self, file: &[u8], report: &RunReport) -> Result<(), String> {
        let version = file[0];
        let mut bench = Bench::<D>::new();
        // the action and the own steps of each thread's operation
        let mut open = [(STEP, 0); THREADS];
        let count = (file.len() - 3) / sizes(version)[0];
        for (index, record) in file[3..].chunks_exact(sizes(version)[0]).enumerate() {
            let [first, second] = [record[0], record[1]];
            let extra = record.get(2..4).map_or(0, |last| u16::from_be_bytes([last[0], last[1]]));
            let (thread, action) = (usize::from(first >> 4), first & 15);
            let place = if thread < THREADS { bench.place(thread) } else { 0 };
            let row = match bench.record_by::<OneWrites, _>(first, second, extra, &mut Silent) {
                Ok(row) => row,
                Err(number) => {
                    if report.records != index as u64 || report.refusal != u64::from(number) {
                        return Err(format!("record {index} is refused with {number}, not as {report:?} says"));
                    }
                    self.refused(version, number, Intruder { first, second, extra }, place > 0, (index, count));
                    return Ok(());
                }
            };
            if action == STEP {
                open[thread].1 += 1;
            } else {
                open[thread] = (action, 0);
            }
            let (action, steps) = open[thread];
            let broken = |what: &str| Err(format!("record {index}, place {place}: {what}"));
            if bench.lost() > 0 {
                return broken("a comparison fails");
            }
            if NEVER.contains(&bench.place(thread)) {
                return broken("a swap was lost, or a join is killed");
            }
            if matches!(action, INSERT | REMOVE) && steps > STEPS_MOST {
                return broken("an insert or a remove takes more than 68 steps");
            }
            let Some([.., answer]) = row else {
                continue;
            };
            match (action, answer) {
                (SPLIT | JOIN, 1) => {}
                (SPLIT | JOIN, 2) if place == 3 => {}
                (SPLIT | JOIN, _) => return broken("a split or a join says neither 1 nor 2"),
                (INSERT | REMOVE, _) => self.steps = self.steps.max(steps),
                _ => {}
            }
        }
        Ok(())
    }

    /// The one-writer run is Run, up to the first barred record.
    fn as_run(&self, file: &[u8], report: &RunReport, rows: &[u8]) -> Result<(), String> {
        let mut part = file.to_vec();
        let mut expected = *report;
        if report.refusal == u64::from(BARRED) {
            part.truncate(3 + sizes(file[0])[0] * report.records as usize);
            part[1..3].copy_from_slice(&(report.records as u16).to_be_bytes());
            expected.refusal = 0;
        }
        let (plain, plain_rows) = ran(&part, run);
        if plain != expected || plain_rows != rows {
            return Err(format!("the one-writer run gives {report:?}, and Run {plain:?}"));
        }
        Ok(())
    }

    fn refused(&mut self, version: u8, number: u8, record: Intruder, busy: bool, (at, count): (usize, usize)) {
        let (thread, action) = (usize::from(record.first >> 4), record.first & 15);
        let start = action != STEP;
        let faults = [
            (7, thread >= THREADS),
            (8, action > if version == 1 { JOIN } else { RANGE }),
            (BARRED, thread > 0 && action > LOOKUP || action == RANGE),
            (9, start && record.second >= STATIONS),
            (14, action == INSERT && record.extra > DEEPEST),
            (15, action == RANGE && (record.extra >= STATIONS.into() || record.extra < record.second.into())),
            (10, start && !matches!(action, INSERT | RANGE) && record.extra > 0),
            (11, start && busy && thread < THREADS),
        ];
        for (fault, _) in faults.into_iter().filter(|&(fault, has)| has && fault != number) {
            self.reach(version, &pair(number, fault));
        }
        if number == BARRED {
            self.reach(version, &who(thread as u8, action));
            self.reach(version, WHERE[if at == 0 { 0 } else { 1 + usize::from(at + 1 == count) }]);
        }
    }

    /// Prints what was reached, and what the counters of versions 1 and 2 say; hands back what was not.
    pub fn report(&self, counters: &[Counter; 3]) -> Vec<String> {
        let mut missing = Vec::new();
        let mut need = |count: u64, what: String| {
            if count == 0 {
                missing.push(what);
            }
            count
        };
        println!("{:76} {:>10}", "one writer", "reached");
        for version in [1, 2] {
            let pairs = PAIRS.iter().take(if version == 1 { DEEP_PAIRS } else { PAIRS.len() });
            let mut whats: Vec<String> = pairs.map(|&(first, second)| pair(first, second)).collect();
            whats.extend(barred(version).into_iter().map(|(thread, action)| who(thread, action)));
            whats.extend(WHERE.map(String::from));
            for what in whats {
                let what = format!("version {version}, one writer: {what}");
                let count = need(self.reached.get(&what).copied().unwrap_or(0), what.clone());
                println!("{what:76} {count:10}");
            }
        }
        need(counters[2].refusals(2), "version 3, one writer: refusal 2".into());
        for (index, counter) in counters.iter().take(2).enumerate() {
            let named = |what: String| format!("version {}, one writer: {what}", index + 1);
            let mut told = Vec::new();
            for number in (1..=14).chain([BARRED]).filter(|&number| number != 6) {
                // a version that there is not is counted with version 1, which has no depths
                if (index, number) != (0, 14) && (index, number) != (1, 2) {
                    let count = need(counter.refusals(number), named(format!("refusal {number}")));
                    told.push(format!("{number}: {count}"));
                }
            }
            println!("{}", named(format!("refusals {}", told.join(", "))));
            told.clear();
            for place in PLACES.into_iter().filter(|place| !NEVER.contains(place)) {
                let count = need(counter.place(place), named(format!("place {place}")));
                told.push(format!("{place}: {count}"));
            }
            println!("{}", named(format!("places {}", told.join(", "))));
            for action in [LOOKUP, INSERT, REMOVE] {
                for answer in [0, 1] {
                    let what = format!("answer {answer} of {}", ACTIONS[usize::from(action)]);
                    need(counter.answers(action, answer), named(what));
                }
            }
            for (action, answer, places) in ANSWERS {
                for &place in places {
                    let what = format!("answer {answer} of {} at place {place}", ACTIONS[usize::from(action)]);
                    need(counter.answers_at(action, answer, place), named(what));
                }
            }
        }
        need(u64::from(self.steps >= STEPS_NEAR), format!("one writer: an insert or a remove of {STEPS_NEAR} steps"));
        println!("the longest insert or remove took {} steps", self.steps);
        missing
    }
}

const WHERE: [&str; 3] =
    ["the first record is barred", "a record in the middle is barred", "the last record is barred"];

fn pair(first: u8, second: u8) -> String {
    format!("refusal {first} of a record that {second} is due to as well")
}

fn who(thread: u8, action: u8) -> String {
    format!("{} barred on thread {thread}", ACTIONS[usize::from(action)])
}

/// Every thread with every action that is barred for it: in version 2 queries for all of them.
fn barred(version: u8) -> Vec<(u8, u8)> {
    let mut all = Vec::new();
    for action in INSERT..=JOIN {
        all.extend((1..THREADS as u8).map(|thread| (thread, action)));
    }
    if version == 2 {
        all.extend((0..THREADS as u8).map(|thread| (thread, RANGE)));
    }
    all
}

/// What a run gives, and the whole of its row buffer, which is just long enough.
fn ran(file: &[u8], run: fn(&[u8], &mut [u8]) -> RunReport) -> (RunReport, Vec<u8>) {
    let mut rows = vec![0xA5; sizes(file.first().copied().unwrap_or(1))[2] * MAX_RECORDS];
    let report = run(file, &mut rows);
    (report, rows)
}

/// One of the shapes by thread 0, then its operations, with lookups of the others between and one that is left open.
fn small(version: u8, shape: usize) -> Plan {
    let mut plan = Plan::new(version);
    grow_by(&mut plan, 0, shape);
    for (action, station) in [(JOIN, 3), (INSERT, 20), (REMOVE, 9), (SPLIT, 20)] {
        plan.start(0, action, station);
        plan.start(1, LOOKUP, 9);
        while !plan.is_idle(0) {
            plan.step(0);
            plan.advance(1);
        }
        plan.finish(1);
        plan.alone(2, LOOKUP, station);
    }
    plan.start(1, LOOKUP, 3);
    plan.alone(3, LOOKUP, 3);
    plan
}

/// Records that are barred or have another fault, and those that are just let through.
fn faulty() -> Vec<Intruder> {
    let mut all = Vec::new();
    for first in 0..=255 {
        // all threads up to 4 and the last one, all actions up to 7 and the last one
        if matches!(first >> 4, 0..=4 | 15) && matches!(first & 15, 0..=7 | 15) {
            for (second, extra) in [(0, 0), (9, 0), (9, 20), (64, 0), (63, 1), (63, 10000), (255, 65535)] {
                all.push(Intruder { first, second, extra });
            }
        }
    }
    all
}

/// The file with one record more, at a position.
fn with(file: &[u8], at: usize, record: Intruder) -> Vec<u8> {
    let width = sizes(file[0])[0];
    let bytes = [&[record.first, record.second][..], &record.extra.to_be_bytes()].concat();
    let mut made = file.to_vec();
    let place = 3 + width * at;
    made.splice(place..place, bytes[..width].iter().copied());
    let count = ((made.len() - 3) / width) as u16;
    made[1..3].copy_from_slice(&count.to_be_bytes());
    made
}

//! The answers rule asked of the library alone, from outside: the short vectors of versions 2 and 3, and random schedules that grow
//! record by record by what the library says, each run to every record, the rows and the set held to a plain set. Nothing
//! of the reference takes part. Besides, three schedules that show what the tests of lines 151, 169 and 189 are for (docs/RANGE.md).

use crate::library;
use crate::plan::Plan;
use crate::rng::Rng;
use reference::{sizes, INSERT, JOIN, LOOKUP, RANGE, REMOVE, SPLIT, STATIONS, STEP, THREADS};
use std::fs;
use std::path::Path;

/// What a case comes to, in words; an error where the library breaks the rule.
type Verdict = Result<String, String>;

/// The records that the schedules have together, at least.
const RECORDS: usize = 250_000;
/// Bytes of a vector that is not short.
const SHORT: usize = 3 + 4 * 100;
/// More steps than an operation needs alone.
const MANY: usize = 3000;

/// How often each action from lookup to range query is started.
const MIXES: [[usize; 6]; 4] = [
    [1, 2, 2, 4, 4, 6],
    [0, 1, 1, 2, 2, 8],
    [1, 4, 4, 4, 6, 3],
    [0, 1, 1, 8, 16, 8],
];

/// One of the cases by its name.
pub fn case(name: &str) -> Verdict {
    match name {
        "answers" => answers(),
        "late-help" => late_help(),
        "cut-route" => cut_route(),
        "five-frames" => five_frames(),
        _ => Err(format!("no case {name}")),
    }
}

/// An operation that is open.
#[derive(Clone)]
struct Open {
    action: u8,
    station: u8,
    upper: u8,
    stepped: bool,
    /// What a lookup or a query could have found at the moments of its span.
    seen: Vec<u64>,
}

impl Open {
    /// The stations asked for that are in.
    fn asked(&self, set: u64) -> u64 {
        set & (u64::MAX >> (63 - self.upper)) & (u64::MAX << self.station)
    }
}

/// A schedule under way, and the plain set that its rows make.
struct World {
    file: Vec<u8>,
    rows: Vec<u8>,
    count: u64,
    set: u64,
    open: [Option<Open>; THREADS],
}

impl World {
    fn new(version: u8) -> Self {
        World {
            file: vec![version, 0, 0],
            rows: Vec::new(),
            count: 0,
            set: 0,
            open: Default::default(),
        }
    }

    fn records(&self) -> usize {
        (self.file.len() - 3) / 4
    }

    /// Adds a record and runs the schedule: whether it was carried out.
    fn record(&mut self, first: u8, second: u8, extra: u16) -> Result<bool, String> {
        self.file.extend([first, second]);
        self.file.extend(extra.to_be_bytes());
        let count = self.records();
        self.file[1..3].copy_from_slice(&(count as u16).to_be_bytes());
        self.rows.resize(sizes(2)[2] * count, 0);
        let report = library::run(&self.file, &mut self.rows);
        if report.refusal != 0 {
            return Ok(false);
        }
        let thread = usize::from(first >> 4);
        if first & 15 != STEP {
            self.open[thread] = Some(Open {
                action: first & 15,
                station: second,
                upper: if first & 15 == RANGE { extra as u8 } else { second },
                stepped: false,
                seen: Vec::new(),
            });
        }
        let row = match report.rows - self.count {
            0 => None,
            1 => Some(self.rows[14 * self.count as usize..][..14].to_vec()),
            more => return Err(format!("one step adds {more} rows")),
        };
        self.count = report.rows;
        self.moment(thread, first & 15 == STEP, row)?;
        if (report.set, report.stored) != (self.set, u64::from(self.set.count_ones())) {
            return Err(format!("the set is {:x}, and the plain set {:x}", report.set, self.set));
        }
        Ok(true)
    }

    /// The moment after a record, which may have added a row.
    fn moment(&mut self, thread: usize, step: bool, row: Option<Vec<u8>>) -> Result<(), String> {
        let was = self.set;
        match row.as_deref() {
            Some([_, INSERT, station, ..]) => self.set |= 1 << station,
            Some([_, REMOVE, station, ..]) => self.set &= !(1 << station),
            _ => {}
        }
        if let (true, Some(open)) = (step, &mut self.open[thread]) {
            open.stepped = true;
        }
        for open in self.open.iter_mut().flatten().filter(|open| open.stepped) {
            let now = open.asked(self.set);
            if open.seen.last() != Some(&now) {
                open.seen.push(now);
            }
        }
        let Some(row) = row else {
            return Ok(());
        };
        let open = self.open[thread].take().ok_or("a row of an idle thread")?;
        let set = u64::from_be_bytes(row[6..].try_into().expect("eight bytes"));
        let inside = was >> open.station & 1;
        let answer = u64::from(row[3]);
        let fits = match open.action {
            INSERT => answer == 1 - inside,
            REMOVE => answer == inside,
            LOOKUP => open.seen.iter().any(|&seen| u64::from(seen != 0) == answer),
            RANGE => open.seen.contains(&set) && answer == u64::from(set != 0),
            _ => true,
        };
        let same = row[..3] == [thread as u8, open.action, open.station] && (open.action == RANGE || set == 0);
        (fits && same).then_some(()).ok_or_else(|| format!("the row {row:?} does not fit"))
    }
}

/// The vectors, then random schedules.
fn answers() -> Verdict {
    let mut vectors = vectors()?.into_iter();
    let mut rng = Rng::new(0x006F_7574_7369_6465);
    let (mut files, mut records, mut queries) = (0, 0, 0);
    while records < RECORDS {
        let vector = vectors.next();
        // one schedule in four stops joins
        let mut world = World::new(vector.as_ref().map_or(if files % 4 == 0 { 3 } else { 2 }, |vector| vector[0]));
        let result = match vector {
            Some(vector) => replay(&mut world, &vector),
            None => grow(&mut world, &mut rng),
        };
        let rows = world.rows.chunks_exact(14).take(world.count as usize);
        queries += rows.filter(|row| row[1] == RANGE).count();
        records += world.records();
        files += 1;
        if let Err(why) = result {
            let bytes: String = world.file.iter().map(|byte| format!("{byte:02x}")).collect();
            return Err(format!("schedule {files}, {bytes}: {why}"));
        }
    }
    if queries < records / 50 {
        return Err(format!("only {queries} queries finished"));
    }
    Ok(format!("every answer fits: {files} schedules, {records} records, {queries} queries"))
}

/// The schedules of versions 2 and 3 in tests/vectors that are not long, in order.
fn vectors() -> Result<Vec<Vec<u8>>, String> {
    let folder = Path::new(env!("CARGO_MANIFEST_DIR")).join("../vectors");
    let entries = fs::read_dir(&folder).map_err(|why| why.to_string())?;
    let mut paths: Vec<_> = entries.flatten().map(|entry| entry.path()).collect();
    paths.sort();
    let schedules = paths.iter().filter(|path| path.extension().is_some_and(|ending| ending == "schedule"));
    let files = schedules.filter_map(|path| fs::read(path).ok());
    let wanted = |file: &Vec<u8>| matches!(file.first(), Some(2 | 3)) && file.len() < SHORT;
    Ok(files.filter(wanted).collect())
}

/// The records of a file up to the first that is refused; then each thread goes on alone to its row.
fn replay(world: &mut World, file: &[u8]) -> Result<(), String> {
    for record in file.get(3..).unwrap_or(&[]).chunks_exact(4) {
        let extra = u16::from_be_bytes([record[2], record[3]]);
        if !world.record(record[0], record[1], extra)? {
            return Ok(());
        }
    }
    for thread in 0..THREADS {
        let enough = world.records() + 200;
        while world.open[thread].is_some() && world.records() < enough {
            if !world.record(16 * thread as u8, 0, 0)? {
                return Ok(());
            }
        }
    }
    Ok(())
}

/// Adds random turns of four threads until one is refused or there are enough.
fn grow(world: &mut World, rng: &mut Rng) -> Result<(), String> {
    let (lowest, width) = (rng.below(50), rng.pick(&[4, 6, 8, 13]));
    let (threads, burst, mix) = (2 + rng.below(3), rng.pick(&[1, 2, 4, 10]), rng.pick(&MIXES));
    let most = rng.pick(&[60, 120, 180]);
    let mut thread = 0;
    while world.records() < most {
        if rng.once_in(burst) {
            thread = rng.below(threads);
        }
        let first = 16 * thread as u8;
        let carried_out = if world.open[thread].is_some() {
            world.record(first, 0, 0)?
        } else {
            let action = LOOKUP + rng.weighted(&mix) as u8;
            let station = (lowest + rng.below(width)) as u8;
            let upper = match rng.below(3) {
                0 => STATIONS - 1,
                _ => station.max((lowest + rng.below(width)) as u8),
            };
            let extra = if action == RANGE { upper.into() } else { 0 };
            world.record(first + action, station, extra)?
        };
        if !carried_out {
            return Ok(());
        }
    }
    Ok(())
}

/// How many further steps of its thread an operation needs, after what a plan has.
fn finishes(plan: &Plan, thread: u8) -> Verdict {
    let mut file = plan.file();
    let rows_of = |file: &[u8]| {
        let mut rows = vec![0; sizes(2)[2] * ((file.len() - 3) / 4)];
        let count = library::run(file, &mut rows).rows as usize;
        rows.chunks_exact(14).take(count).filter(|row| row[0] == thread).count()
    };
    let before = rows_of(&file);
    for steps in 1..=MANY {
        file.extend([16 * thread, 0, 0, 0]);
        let count = ((file.len() - 3) / 4) as u16;
        file[1..3].copy_from_slice(&count.to_be_bytes());
        if rows_of(&file) > before {
            return Ok(format!("t{thread} finishes {steps} steps later"));
        }
    }
    Ok(format!("t{thread} does not finish in {MANY} steps"))
}

/// Line 169: t2 comes to help a query that is over, and finds another base where it began.
fn late_help() -> Verdict {
    let mut plan = Plan::new(2);
    for (action, station) in [(INSERT, 3), (INSERT, 9), (SPLIT, 3)] {
        plan.alone(0, action, station);
    }
    plan.ask(1, 0, 2);
    plan.until(1, |at| at == 81);
    plan.start(2, INSERT, 4);
    plan.until(2, |at| at == 60);
    plan.finish(1);
    plan.alone(3, INSERT, 5);
    finishes(&plan, 2)
}

/// Line 189: t1 helps three deep; the last of these queries ends, and its thread asks anew, ahead of t1.
fn five_frames() -> Verdict {
    let mut plan = Plan::new(2);
    for station in [2, 4, 6, 8, 10] {
        plan.alone(0, INSERT, station);
    }
    for station in [2, 2, 6, 8] {
        plan.alone(0, SPLIT, station);
    }
    for (thread, station) in [(1, 0), (2, 4), (3, 6), (0, 8)] {
        plan.ask(thread, station, 63);
        plan.until(thread, |at| at == 70);
    }
    while plan.frames(1) < 4 {
        plan.step(1);
    }
    plan.until(1, |at| at == 74);
    plan.finish(0);
    plan.ask(0, 10, 63);
    plan.until(0, |at| at == 70);
    finishes(&plan, 1)
}

/// Line 151: a route on t1's stack is cut out by a join.
fn cut_route() -> Verdict {
    let mut plan = Plan::new(2);
    for (action, station) in [(INSERT, 9), (INSERT, 14), (SPLIT, 9), (INSERT, 3), (SPLIT, 3)] {
        plan.alone(0, action, station);
    }
    plan.ask(1, 0, 63);
    plan.step(1);
    plan.step(1);
    plan.alone(0, JOIN, 14);
    finishes(&plan, 1)
}

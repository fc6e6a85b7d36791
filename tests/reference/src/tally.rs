//! A tally over many files' runs (02, f): what each action's operations came to, and the refusals.

use crate::bench::{Answer, Bench, STEP, THREADS};
use crate::file::{run, One, RunReport, Three, Two, Version};

/// Cells of a field: one for each action number, of which 0 and 7 stay as they are.
pub const TALLY_ACTIONS: usize = 8;

/// One more than the highest refusal number that a run can get in any version.
pub const TALLY_REFUSALS: usize = 17;

/// The number of cells, in the order of the fields.
pub const TALLY_CELLS: usize = 6 * TALLY_ACTIONS + TALLY_REFUSALS;

/// Refusal of a file that would take a field past 32 bits.
pub const TALLY_FULL: u64 = 19;

#[derive(Clone, Copy, Debug, Default, PartialEq, Eq)]
pub struct Tally {
    /// Accepted starts, by action.
    pub starts: [u32; TALLY_ACTIONS],
    /// Finished with yes, and with any other answer.
    pub yes: [u32; TALLY_ACTIONS],
    pub no: [u32; TALLY_ACTIONS],
    /// Open at the end.
    pub unfinished: [u32; TALLY_ACTIONS],
    /// Own steps of the finished ones, all together and the most of one.
    pub steps: [u32; TALLY_ACTIONS],
    pub largest: [u32; TALLY_ACTIONS],
    /// Files by the number that they were refused with; 0 and 6 stay as they are.
    pub refusals: [u32; TALLY_REFUSALS],
}

impl Tally {
    /// The cells that are added up, each with that of another tally.
    fn sums<'a>(&'a mut self, other: &'a Tally) -> impl Iterator<Item = (&'a mut u32, &'a u32)> {
        let fields = [
            (&mut self.starts[..], &other.starts[..]),
            (&mut self.yes, &other.yes),
            (&mut self.no, &other.no),
            (&mut self.unfinished, &other.unfinished),
            (&mut self.steps, &other.steps),
            (&mut self.refusals, &other.refusals),
        ];
        fields.into_iter().flat_map(|(mine, theirs)| mine.iter_mut().zip(theirs))
    }

    /// The sum field by field, the largest for the largest; `None` where a field would pass 32 bits.
    pub fn plus(mut self, other: &Tally) -> Option<Tally> {
        for (mine, theirs) in self.sums(other) {
            *mine = mine.checked_add(*theirs)?;
        }
        for (mine, theirs) in self.largest.iter_mut().zip(&other.largest) {
            *mine = (*mine).max(*theirs);
        }
        Some(self)
    }

    /// Own steps over finished operations of an action, in lowest terms; 0/1 where none finished, and where there can be no
    /// such action.
    pub fn average(&self, action: u8) -> [u64; 2] {
        if !(1..=6).contains(&action) {
            return [0, 1];
        }
        let action = usize::from(action);
        let operations = u64::from(self.yes[action]) + u64::from(self.no[action]);
        let steps = u64::from(self.steps[action]);
        if operations == 0 {
            return [0, 1];
        }
        let divisor = common(steps, operations);
        [steps / divisor, operations / divisor]
    }

    /// All cells in the order of the fields.
    pub fn cells(&self) -> [u32; TALLY_CELLS] {
        let mut cells = [0; TALLY_CELLS];
        let fields = [&self.starts, &self.yes, &self.no, &self.unfinished, &self.steps, &self.largest];
        for (at, field) in fields.into_iter().enumerate() {
            cells[TALLY_ACTIONS * at..][..TALLY_ACTIONS].copy_from_slice(field);
        }
        cells[TALLY_CELLS - TALLY_REFUSALS..].copy_from_slice(&self.refusals);
        cells
    }

    pub fn of(cells: &[u32; TALLY_CELLS]) -> Self {
        let field = |at: usize| {
            let part = &cells[TALLY_ACTIONS * at..][..TALLY_ACTIONS];
            part.try_into().expect("eight cells")
        };
        let last = &cells[TALLY_CELLS - TALLY_REFUSALS..];
        Tally {
            starts: field(0),
            yes: field(1),
            no: field(2),
            unfinished: field(3),
            steps: field(4),
            largest: field(5),
            refusals: last.try_into().expect("as many cells"),
        }
    }
}

/// The greatest common divisor of two numbers of which the second is not 0.
fn common(a: u64, b: u64) -> u64 {
    if a == 0 {
        b
    } else {
        common(b % a, a)
    }
}

/// What the run of one file adds to a tally; `report` is what Run says of it.
pub fn single(schedule: &[u8], report: &RunReport) -> Tally {
    let mut tally = Tally::default();
    if report.refusal != 0 {
        tally.refusals[report.refusal as usize] = 1;
    }
    if (1..=5).contains(&report.refusal) {
        return tally;
    }
    match schedule[0] {
        2 => records::<Two>(&schedule[3..], &mut tally),
        3 => records::<Three>(&schedule[3..], &mut tally),
        _ => records::<One>(&schedule[3..], &mut tally),
    }
    tally
}

/// Adds what the records do, up to the first one refused, and what is open then.
#[inline(never)] // its bench and that of the run are not in memory at once
fn records<V: Version>(records: &[u8], tally: &mut Tally) {
    let mut bench = Bench::<V::Depths>::new();
    // the action and the own steps of each thread's last operation
    let mut last = [(STEP, 0); THREADS];
    for record in records.chunks_exact(V::RECORD) {
        let Ok(row) = bench.record(record[0], record[1], V::extra(record)) else {
            break;
        };
        let (thread, action) = (usize::from(record[0] >> 4), record[0] & 15);
        if action != STEP {
            last[thread] = (action, 0);
            tally.starts[usize::from(action)] += 1;
            continue;
        }
        last[thread].1 += 1;
        if let Some([_, action, _, answer]) = row {
            let (action, own) = (usize::from(action), last[thread].1);
            if answer == Answer::Yes as u8 {
                tally.yes[action] += 1;
            } else {
                tally.no[action] += 1;
            }
            tally.steps[action] += own;
            tally.largest[action] = tally.largest[action].max(own);
        }
    }
    for thread in (0..THREADS).filter(|&thread| bench.place(thread) != 0) {
        tally.unfinished[usize::from(last[thread].0)] += 1;
    }
}

/// Carries out a schedule and adds its run to the tally: what Run says, and 0, or 19 where a field would pass 32 bits, and
/// then the tally is as it was.
pub fn tally(schedule: &[u8], rows: &mut [u8], tally: &mut Tally) -> (RunReport, u64) {
    let report = run(schedule, rows);
    match tally.plus(&single(schedule, &report)) {
        Some(sum) => {
            *tally = sum;
            (report, 0)
        }
        None => (report, TALLY_FULL),
    }
}

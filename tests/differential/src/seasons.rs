//! Seasons: one tally lent to file after file, through the library's and the reference's Tally, begun empty, with any content and
//! near 32 bits, so that each field in turn is refused with 19; that it is the sum of the single tallies; and averages.

use crate::blocks::Blocks;
use crate::compare::{claimed, version_index, Comparer};
use crate::library;
use crate::rng::Rng;
use reference::{
    single, sizes, RunReport, Tally, ACTIONS, JOIN, LOOKUP, RANGE, TALLY_ACTIONS, TALLY_CELLS, TALLY_FULL, TALLY_REFUSALS,
};

/// The fields in the order of their cells; the largest is not added up.
const FIELDS: [&str; 6] = ["starts", "yes", "no", "unfinished", "steps", "largest"];
const LARGEST: usize = 5;

/// Where the refusals begin.
const REFUSALS: usize = TALLY_CELLS - TALLY_REFUSALS;

/// The last action of each version, and refusals that its files cannot get, as in `coverage`.
const VERSIONS: usize = 3;
const LAST: [u8; VERSIONS] = [JOIN, RANGE, RANGE];
const NEVER: [&[u8]; VERSIONS] = [&[14, 15, 16], &[2], &[2]];

/// Most files of a season.
const LONGEST: usize = 300;

pub struct Seasons {
    /// The running tally, and the same in numbers of any size.
    tally: Tally,
    sums: [u64; TALLY_CELLS],
    left: usize,
    /// Files that took a cell past 32 bits, and files that took it just there, by version and cell.
    past: [[u64; TALLY_CELLS]; VERSIONS],
    just: [[u64; TALLY_CELLS]; VERSIONS],
    /// Files added, by version, and refused with 19 on the way of a season; seasons that began empty.
    added: [u64; VERSIONS],
    refused: u64,
    empty: u64,
    averages: u64,
    /// The last few files that were given, for seasons in another order.
    kept: Vec<Vec<u8>>,
    orders: u64,
    blocks: Blocks,
}

impl Default for Seasons {
    fn default() -> Self {
        Seasons {
            tally: Tally::default(),
            sums: [0; TALLY_CELLS],
            left: 0,
            past: [[0; TALLY_CELLS]; VERSIONS],
            just: [[0; TALLY_CELLS]; VERSIONS],
            added: [0; VERSIONS],
            refused: 0,
            empty: 0,
            averages: 0,
            kept: Vec::new(),
            orders: 0,
            blocks: Blocks::default(),
        }
    }
}

/// Whether a cell holds a largest number.
fn is_largest(cell: usize) -> bool {
    cell / TALLY_ACTIONS == LARGEST && cell < REFUSALS
}

fn name(cell: usize) -> String {
    if cell >= REFUSALS {
        return format!("refusals, {}", cell - REFUSALS);
    }
    let (field, action) = (FIELDS[cell / TALLY_ACTIONS], cell % TALLY_ACTIONS);
    format!("{field}, {}", ACTIONS.get(action).copied().unwrap_or("no action"))
}

/// The cells that files of a version add to.
fn reachable(version: usize) -> impl Iterator<Item = usize> {
    (0..TALLY_CELLS).filter(move |&cell| {
        if cell < REFUSALS {
            return !is_largest(cell) && (LOOKUP..=LAST[version]).contains(&((cell % TALLY_ACTIONS) as u8));
        }
        let number = (cell - REFUSALS) as u8;
        (1..=16).contains(&number) && number != 6 && !NEVER[version].contains(&number)
    })
}

impl Seasons {
    /// The next file of the season: compared after it, held against the sum, and then with tallies near 32 bits.
    pub fn file(&mut self, file: &[u8], comparer: &mut Comparer, rng: &mut Rng) -> Result<(), String> {
        let need = sizes(file.first().copied().unwrap_or(0))[2] * claimed(file);
        let room = match rng.below(16) {
            0 => need + rng.below(100),
            1 if need > 0 => rng.below(need),
            _ => need,
        };
        if self.left == 0 {
            self.begin(rng);
        }
        self.left -= 1;
        let before = self.tally;
        let (after, report, refusal) = comparer.tally(file, room, &before, rng)?;
        let one = single(file, &report).cells();
        let mut sums = self.sums;
        for (cell, sum) in sums.iter_mut().enumerate() {
            let more = u64::from(one[cell]);
            *sum = if is_largest(cell) { (*sum).max(more) } else { *sum + more };
        }
        let fits = sums.iter().all(|&sum| sum <= u64::from(u32::MAX));
        if fits != (refusal == 0) || (!fits && (refusal != TALLY_FULL || after != before)) {
            return Err(format!("Tally says {refusal} of a file that {} fit", if fits { "does" } else { "does not" }));
        }
        if fits {
            self.added[version_index(file)] += 1;
            self.sums = sums;
        } else {
            self.refused += 1;
        }
        if after.cells().map(u64::from) != self.sums {
            return Err("the tally is not the sum of the single tallies".into());
        }
        self.balanced(&one, &report)?;
        self.blocks.file(file, report.records);
        self.tally = after;
        self.limits(file, room, &one, comparer, rng)?;
        self.reordered(file, comparer, rng)
    }

    fn begin(&mut self, rng: &mut Rng) {
        self.left = 1 + rng.below(LONGEST);
        let cells = match rng.below(4) {
            0 => std::array::from_fn(|_| rng.word() as u32),
            1 => std::array::from_fn(|_| u32::MAX - rng.below(3000) as u32),
            _ => [0; TALLY_CELLS],
        };
        self.empty += u64::from(cells == [0; TALLY_CELLS]);
        self.tally = Tally::of(&cells);
        self.sums = cells.map(u64::from);
    }

    /// Of one file every start is answered or unfinished, and no operation takes more steps than all.
    fn balanced(&self, one: &[u32; TALLY_CELLS], report: &RunReport) -> Result<(), String> {
        let one = Tally::of(one);
        let answers: u32 = one.yes.iter().chain(&one.no).sum();
        let balanced = (0..TALLY_ACTIONS).all(|a| one.starts[a] == one.yes[a] + one.no[a] + one.unfinished[a]);
        let largest = (0..TALLY_ACTIONS).all(|a| one.largest[a] <= one.steps[a]);
        let steps: u32 = one.starts.iter().chain(&one.steps).sum();
        if !balanced || !largest || u64::from(answers) != report.rows || u64::from(steps) > report.records {
            return Err(format!("the tally of one file does not add up: {one:?}"));
        }
        Ok(())
    }

    /// The file with a tally that has one cell so near 32 bits that it goes past, and so near that it just fits.
    fn limits(
        &mut self,
        file: &[u8],
        room: usize,
        one: &[u32; TALLY_CELLS],
        comparer: &mut Comparer,
        rng: &mut Rng,
    ) -> Result<(), String> {
        let version = version_index(file);
        let touched = (0..TALLY_CELLS).filter(|&cell| one[cell] > 0 && !is_largest(cell));
        let Some(cell) = touched.min_by_key(|&cell| self.past[version][cell].min(self.just[version][cell])) else {
            return Ok(());
        };
        if self.past[version][cell] > 8 && !rng.once_in(8) {
            return Ok(());
        }
        let mut cells: [u32; TALLY_CELLS] = std::array::from_fn(|_| rng.word() as u32 >> rng.pick(&[2, 29]));
        cells[cell] = u32::MAX - one[cell] + 1;
        let (after, _, refusal) = comparer.tally(file, room, &Tally::of(&cells), rng)?;
        if refusal != TALLY_FULL || after.cells() != cells {
            return Err(format!("{} goes past 32 bits, and Tally says {refusal}", name(cell)));
        }
        self.past[version][cell] += 1;
        cells[cell] -= 1;
        let (after, _, refusal) = comparer.tally(file, room, &Tally::of(&cells), rng)?;
        if refusal != 0 || after.cells()[cell] != u32::MAX {
            return Err(format!("{} just fits 32 bits, and Tally says {refusal}", name(cell)));
        }
        self.just[version][cell] += 1;
        Ok(())
    }

    /// Now and then the last few files once more, forwards and backwards.
    fn reordered(&mut self, file: &[u8], comparer: &mut Comparer, rng: &mut Rng) -> Result<(), String> {
        if file.len() > 2000 || !rng.once_in(8) {
            return Ok(());
        }
        self.kept.push(file.to_vec());
        if self.kept.len() < 6 {
            return Ok(());
        }
        let mut files = std::mem::take(&mut self.kept);
        let mut season = |files: &[Vec<u8>]| -> Result<Tally, String> {
            files.iter().try_fold(Tally::default(), |tally, file| {
                let room = sizes(file.first().copied().unwrap_or(0))[2] * claimed(file);
                comparer.tally(file, room, &tally, rng).map(|(after, ..)| after)
            })
        };
        let forwards = season(&files)?;
        files.reverse();
        if season(&files)? != forwards {
            return Err("a season in another order has another tally".into());
        }
        self.orders += 1;
        Ok(())
    }

    /// The averages of tallies of any content, the running one among them.
    pub fn average(&mut self, rng: &mut Rng) -> Result<(), String> {
        let one = |rng: &mut Rng| match rng.below(5) {
            0 => 0,
            1 => rng.below(20) as u32,
            2 => 5040 * rng.below(100_000) as u32,
            3 => u32::MAX - rng.below(2) as u32,
            _ => rng.word() as u32,
        };
        let random: [u32; TALLY_CELLS] = std::array::from_fn(|_| one(rng));
        for cells in [random, self.tally.cells()] {
            let tally = Tally::of(&cells);
            for action in (0..=9).chain([255]) {
                let got = library::average(&cells, action);
                let expected = tally.average(action);
                if got != expected {
                    return Err(format!("the average of action {action} of {tally:?} is {got:?}, not {expected:?}"));
                } else if !(1..=6).contains(&action) && got != [0, 1] {
                    return Err(format!("{action} is no action, and its average is {got:?}"));
                }
                if (1..=6).contains(&action) {
                    lowest(&tally, usize::from(action), expected)?;
                }
                self.averages += 1;
            }
        }
        Ok(())
    }

    /// Prints what was reached; hands back what was not.
    pub fn report(&self) -> Vec<String> {
        let mut missing = Vec::new();
        let mut need = |count: u64, what: String| {
            if count == 0 {
                missing.push(what);
            }
        };
        println!(
            "seasons: {:?} files added by version, {} refused with 19, {} begun empty, {} in another order, {} averages",
            self.added, self.refused, self.empty, self.orders, self.averages
        );
        need(self.refused, "a file of a season refused with 19".into());
        need(self.empty, "a season begun empty".into());
        need(self.orders, "a season in another order".into());
        need(self.averages, "an average".into());
        for version in 0..VERSIONS {
            need(self.added[version], format!("version {}: a file added to a season", version + 1));
            let least = reachable(version).map(|cell| self.past[version][cell]).min();
            println!("version {}: each field was taken past 32 bits, at least {} times", version + 1, least.unwrap_or(0));
            for cell in reachable(version) {
                let what = |how: &str| format!("version {}: {} {how} 32 bits", version + 1, name(cell));
                need(self.past[version][cell], what("past"));
                need(self.just[version][cell], what("just in"));
            }
        }
        self.blocks.report(&mut missing);
        missing
    }
}

/// The two numbers of an average have no common divisor and are steps over operations; 0 over 1 where none finished.
fn lowest(tally: &Tally, action: usize, [steps, operations]: [u64; 2]) -> Result<(), String> {
    let all = u128::from(tally.yes[action]) + u128::from(tally.no[action]);
    let same = u128::from(steps) * all == u128::from(tally.steps[action]) * u128::from(operations);
    let (mut a, mut b) = (steps, operations);
    while b != 0 {
        (a, b) = (b, a % b);
    }
    if a != 1 || (all > 0 && !same) || (all == 0 && [steps, operations] != [0, 1]) {
        return Err(format!("{steps} over {operations} is no average of {tally:?}, action {action}"));
    }
    Ok(())
}

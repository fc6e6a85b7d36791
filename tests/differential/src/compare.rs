//! One file through the library and the reference: every field and every byte of every buffer.

use crate::guard::Guarded;
use crate::library;
use crate::rng::Rng;
use crate::states::States;
use reference::{
    sizes, Counter, Observer, RunReport, Tally, EVENT, HISTORY_HEADER, MAX_RECORDS, STATE_ROOM, TALLY_CELLS,
};
use std::fmt::Debug;
use std::ops::Range;

/// The most a buffer is longer than it need be.
const SLACK: usize = 300;

/// Run, or the one-writer run.
#[derive(Clone, Copy)]
enum Which {
    Run,
    OneWriter,
}

/// The memory lent to the library and its twins for the reference.
pub struct Comparer {
    file: Guarded,
    buffer: Guarded,
    tally: Guarded,
    twin: Vec<u8>,
    /// What the reference's Run reached, in files of version 2, of version 3 and in all others.
    pub counters: [Counter; 3],
    /// What its one-writer run reached in the files given to `one_writer`, likewise.
    pub one_writer: [Counter; 3],
    /// What the states compared have shown, likewise.
    pub states: [States; 3],
    /// Records carried out, each file counted once.
    pub records: u64,
}

impl Comparer {
    /// For files of at most `longest` bytes.
    pub fn new(longest: usize) -> Self {
        Comparer {
            file: Guarded::new(longest),
            buffer: Guarded::new(STATE_ROOM.max(sizes(2)[2] * MAX_RECORDS) + SLACK),
            tally: Guarded::new(4 * TALLY_CELLS),
            twin: Vec::new(),
            counters: [(); 3].map(|()| Counter::new()),
            one_writer: [(); 3].map(|()| Counter::new()),
            states: [(); 3].map(|()| States::default()),
            records: 0,
        }
    }

    /// Compares the runs, List and History on a file, with buffers of several lengths; the first difference ends it.
    pub fn file(&mut self, file: &[u8], rng: &mut Rng) -> Result<(), String> {
        let [_, _, room, text] = sizes(file.first().copied().unwrap_or(0));
        let need = room * claimed(file);
        self.rooms(Which::Run, file, rng)?;
        self.run(Which::OneWriter, file, need, rng, false)?;
        self.list(file, text, rng)?;
        self.list(file, text + 1 + rng.below(SLACK), rng)?;
        self.list(file, text - 1, rng)?;
        self.list(file, rng.below(text), rng)?;
        let need = HISTORY_HEADER + EVENT * claimed(file);
        self.history(file, need, rng)?;
        self.history(file, need + 1 + rng.below(SLACK), rng)?;
        self.history(file, need - 1, rng)?;
        self.history(file, rng.below(need), rng)?;
        self.states(file, rng)
    }

    /// Compares State, on one short file of four and thrice on a long one: mostly after some of its records, with a buffer that
    /// is just long enough; else with one that is longer, one byte short or shorter, and after none, all or more than all of them.
    fn states(&mut self, file: &[u8], rng: &mut Rng) -> Result<(), String> {
        let times = match claimed(file) {
            0..=99 => usize::from(rng.once_in(4)),
            _ => 3,
        };
        (0..times).try_for_each(|_| self.some_state(file, rng))
    }

    fn some_state(&mut self, file: &[u8], rng: &mut Rng) -> Result<(), String> {
        let all = claimed(file);
        let count = match rng.below(8) {
            0 => 0,
            1 => all as u64,
            2 => (all + 1 + rng.below(5000)) as u64,
            3 => u64::MAX - rng.below(3) as u64,
            _ => rng.below(all + 1) as u64,
        };
        let room = match rng.below(12) {
            0 => STATE_ROOM - 1,
            1 => rng.below(STATE_ROOM),
            2 | 3 => STATE_ROOM + 1 + rng.below(SLACK),
            _ => STATE_ROOM,
        };
        self.state(file, count, room, rng)
    }

    /// Compares the one-writer run on a file, with buffers of several lengths.
    pub fn one_writer(&mut self, file: &[u8], rng: &mut Rng) -> Result<(), String> {
        self.rooms(Which::OneWriter, file, rng)
    }

    /// One of the runs with a row buffer that is just long enough, longer, one byte short and shorter.
    fn rooms(&mut self, which: Which, file: &[u8], rng: &mut Rng) -> Result<(), String> {
        let need = sizes(file.first().copied().unwrap_or(0))[2] * claimed(file);
        self.run(which, file, need, rng, true)?;
        self.run(which, file, need + 1 + rng.below(SLACK), rng, false)?;
        if need > 0 {
            self.run(which, file, need - 1, rng, false)?;
            self.run(which, file, rng.below(need), rng, false)?;
        }
        Ok(())
    }

    fn run(
        &mut self,
        which: Which,
        file: &[u8],
        room: usize,
        rng: &mut Rng,
        counts: bool,
    ) -> Result<(), String> {
        let counters = match which {
            Which::Run => &mut self.counters,
            Which::OneWriter => &mut self.one_writer,
        };
        let reached = &mut counters[version_index(file)];
        let place = prepare(
            &mut self.file,
            &mut self.buffer,
            &mut self.twin,
            file,
            room,
            rng,
        );
        let twin = &mut self.twin[place.twin.clone()];
        let lent = &mut self.buffer.bytes_mut()[place.buffer.clone()];
        let copy = &self.file.bytes()[place.file.clone()];
        let (name, got) = match which {
            Which::Run => ("Run", library::run(copy, lent)),
            Which::OneWriter => ("the one-writer run", library::run_one_writer(copy, lent)),
        };
        let expected = match (which, counts) {
            (Which::Run, true) => reference::run_observed(file, twin, reached),
            (Which::Run, false) => reference::run(file, twin),
            (Which::OneWriter, true) => reference::run_one_writer_observed(file, twin, reached),
            (Which::OneWriter, false) => reference::run_one_writer(file, twin),
        };
        if counts {
            self.records += expected.records;
        } else if expected.refusal == 5 {
            reached.refusal(5, 0);
        }
        self.judge(name, room, file, place, (got, expected))
    }

    /// Compares Tally on a file, with a tally lent to both and a row buffer of `room` bytes. Hands back what the tally then
    /// holds, what Run says, and 0 or 19.
    pub fn tally(
        &mut self,
        file: &[u8],
        room: usize,
        lent: &Tally,
        rng: &mut Rng,
    ) -> Result<(Tally, RunReport, u64), String> {
        let place = prepare(
            &mut self.file,
            &mut self.buffer,
            &mut self.twin,
            file,
            room,
            rng,
        );
        let mut after = *lent;
        let expected = reference::tally(file, &mut self.twin[place.twin.clone()], &mut after);
        let at = self.tally.place(4 * TALLY_CELLS, rng.once_in(2));
        // a mapping begins at a page, and a tally is whole words
        let (_, words, _) = unsafe { self.tally.bytes_mut().align_to_mut::<u32>() };
        words.fill(0x5A5A_A5A5);
        let cells = &mut words[at.start / 4..at.end / 4];
        cells.copy_from_slice(&lent.cells());
        let buffer = &mut self.buffer.bytes_mut()[place.buffer.clone()];
        let got = library::tally(&self.file.bytes()[place.file.clone()], buffer, cells);
        if let Some(i) = (0..TALLY_CELLS).find(|&i| cells[i] != after.cells()[i]) {
            let (was, now, right) = (lent.cells()[i], cells[i], after.cells()[i]);
            return Err(format!("Tally: cell {i}, {was} before, is {now}, not {right}"));
        }
        cells.fill(0x5A5A_A5A5);
        if words.iter().any(|&word| word != 0x5A5A_A5A5) {
            return Err("Tally wrote beside the tally".into());
        }
        self.judge("Tally", room, file, place, (got, expected))?;
        Ok((after, expected.0, expected.1))
    }

    fn list(&mut self, file: &[u8], room: usize, rng: &mut Rng) -> Result<(), String> {
        let place = prepare(
            &mut self.file,
            &mut self.buffer,
            &mut self.twin,
            file,
            room,
            rng,
        );
        let expected = reference::list(file, &mut self.twin[place.twin.clone()]);
        let lent = &mut self.buffer.bytes_mut()[place.buffer.clone()];
        let got = library::list(&self.file.bytes()[place.file.clone()], lent);
        if expected.refusal == 6 {
            self.counters[version_index(file)].refusal(6, 0);
        }
        self.judge("List", room, file, place, (got, expected))
    }

    fn history(&mut self, file: &[u8], room: usize, rng: &mut Rng) -> Result<(), String> {
        let place = prepare(
            &mut self.file,
            &mut self.buffer,
            &mut self.twin,
            file,
            room,
            rng,
        );
        let expected = reference::history(file, &mut self.twin[place.twin.clone()]);
        let lent = &mut self.buffer.bytes_mut()[place.buffer.clone()];
        let got = library::history(&self.file.bytes()[place.file.clone()], lent);
        self.judge("History", room, file, place, (got, expected))
    }

    fn state(&mut self, file: &[u8], count: u64, room: usize, rng: &mut Rng) -> Result<(), String> {
        let place = prepare(
            &mut self.file,
            &mut self.buffer,
            &mut self.twin,
            file,
            room,
            rng,
        );
        let twin = &mut self.twin[place.twin.clone()];
        let expected = reference::state(file, count, twin);
        self.states[version_index(file)].saw(&expected, count, claimed(file) as u64, twin);
        let lent = &mut self.buffer.bytes_mut()[place.buffer.clone()];
        let got = library::state(&self.file.bytes()[place.file.clone()], count, lent);
        self.judge(&format!("State after {count} records"), room, file, place, (got, expected))
    }

    fn judge<R: Debug + PartialEq>(
        &self,
        name: &str,
        room: usize,
        file: &[u8],
        place: Place,
        (got, expected): (R, R),
    ) -> Result<(), String> {
        if got != expected {
            return Err(format!(
                "{name} with {room} bytes gives {got:?}, not {expected:?}"
            ));
        }
        let bytes = &self.buffer.bytes()[place.seen.clone()];
        if bytes != self.twin {
            let at = (0..bytes.len())
                .find(|&i| bytes[i] != self.twin[i])
                .expect("they differ");
            let offset = at as isize - place.twin.start as isize;
            let (got, expected) = (bytes[at], self.twin[at]);
            return Err(format!(
                "{name} with {room} bytes: byte {offset} is {got}, not {expected}"
            ));
        }
        if self.file.bytes()[place.file] != *file {
            return Err(format!("{name} wrote to the schedule"));
        }
        Ok(())
    }
}

/// Where the file and the buffer were lent, the bytes looked at, which are some more than the buffer's, and where the
/// buffer lies in their twin.
struct Place {
    file: Range<usize>,
    buffer: Range<usize>,
    seen: Range<usize>,
    twin: Range<usize>,
}

/// Copies the file in, and fills the buffer, what lies beside it and the twin with one random pattern.
fn prepare(
    memory: &mut Guarded,
    buffer: &mut Guarded,
    twin: &mut Vec<u8>,
    file: &[u8],
    room: usize,
    rng: &mut Rng,
) -> Place {
    let at_start = rng.once_in(2);
    let lent = buffer.place(room, at_start);
    let seen = buffer.place((room + SLACK).min(buffer.bytes().len()), at_start);
    let place = Place {
        file: memory.place(file.len(), at_start),
        twin: lent.start - seen.start..lent.end - seen.start,
        buffer: lent,
        seen,
    };
    memory.bytes_mut()[place.file.clone()].copy_from_slice(file);
    let (first, stride) = (rng.byte(), rng.byte() | 1);
    twin.clear();
    twin.extend((0..place.seen.len()).map(|i| first.wrapping_add((i as u8).wrapping_mul(stride))));
    buffer.bytes_mut()[place.seen.clone()].copy_from_slice(twin);
    place
}

/// Where what a file reaches is counted.
pub fn version_index(file: &[u8]) -> usize {
    match file.first() {
        Some(version @ 2..=3) => usize::from(version - 1),
        _ => 0,
    }
}

/// The count that the header states, as far as there is a header, and no more than a file may hold.
pub fn claimed(file: &[u8]) -> usize {
    match file {
        [_, high, low, ..] => usize::from(u16::from_be_bytes([*high, *low])).min(MAX_RECORDS),
        _ => 0,
    }
}

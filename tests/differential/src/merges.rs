//! Merge through the library and the reference: every fault of either file, in every order, and every shape of
//! two files that are merged; every field and every byte of every buffer. A merged file is also held to the two
//! lists of records, drawn in turns.

use crate::guard::Guarded;
use crate::library;
use crate::rng::Rng;
use reference::{MergeReport, MAX_RECORDS};
use std::collections::BTreeMap;
use std::ops::Range;

/// The most a buffer is longer than it need be.
const SLACK: usize = 300;
/// The longest file made here, with a byte after it.
const LONGEST: usize = 3 + 2 * MAX_RECORDS + 2;

/// What is wrong with a file: nothing (0), a fault 1 to 4, or a thread that is not the file's (17).
const FAULTS: [u64; 6] = [0, 1, 2, 3, 4, 17];

#[derive(Clone, Copy)]
enum Room {
    Exact,
    Short,
    Longer,
}

/// Pairs of counts by the shape that they give; the last two total 4,096 and 4,097.
const SHAPES: [&str; 8] = [
    "both empty",
    "first empty",
    "second empty",
    "equal",
    "first longer",
    "second longer",
    "4,096 in total",
    "4,097 in total",
];

fn counts(shape: usize, rng: &mut Rng) -> (usize, usize) {
    let (n, more) = (1 + rng.below(40), 1 + rng.below(40));
    let large = rng.below(MAX_RECORDS + 1);
    match shape {
        0 => (0, 0),
        1 => (0, n),
        2 => (n, 0),
        3 => (n, n),
        4 => (n + more, n),
        5 => (n, n + more),
        6 => (large, MAX_RECORDS - large),
        _ => (large.max(1), MAX_RECORDS + 1 - large.max(1)),
    }
}

/// A file of so many records of two threads, any action and any second byte.
pub fn whole(count: usize, lowest: u8, rng: &mut Rng) -> Vec<u8> {
    let mut file = vec![1, (count >> 8) as u8, count as u8];
    for _ in 0..count {
        let thread = lowest + rng.below(2) as u8;
        file.extend([16 * thread + rng.below(16) as u8, rng.byte()]);
    }
    file
}

/// The file with a fault put in; false where there is no record to put it in.
fn spoil(file: &mut Vec<u8>, fault: u64, lowest: u8, rng: &mut Rng) -> bool {
    let count = (file.len() - 3) / 2;
    match fault {
        1 => file.truncate(rng.below(3)),
        2 => {
            let any = rng.byte();
            file[0] = rng.pick(&[0, 2, 3, 255, if any == 1 { 2 } else { any }]);
        }
        3 => {
            let stated = MAX_RECORDS + 1 + rng.below(65_536 - MAX_RECORDS - 1);
            file[1..3].copy_from_slice(&(stated as u16).to_be_bytes());
        }
        4 if count > 0 && rng.once_in(2) => file.truncate(file.len() - 1 - rng.below(2)),
        4 => file.extend(vec![0; 1 + rng.below(2)]),
        17 if count == 0 => return false,
        17 => {
            let threads: Vec<u8> = (0..16).filter(|t| t / 2 != lowest / 2).collect();
            let any = rng.below(count);
            let at = 3 + 2 * rng.pick(&[0, count - 1, any]);
            file[at] = 16 * rng.pick(&threads) + rng.below(16) as u8;
        }
        _ => {}
    }
    true
}

/// Every thread with a file that it is not for: 0 the first, 1 the second.
fn strangers() -> impl Iterator<Item = (usize, u8)> {
    (0..2).flat_map(|at| {
        (0..16)
            .filter(move |thread| usize::from(thread / 2) != at)
            .map(move |thread| (at, thread))
    })
}

/// The number that the papers give, from what was put in.
fn number(faults: (u64, u64), total: usize, room: Room) -> u64 {
    match (faults.0, faults.1, room) {
        (fault @ 1..=4, _, _) => fault,
        (_, fault @ 1..=4, _) => fault,
        (17, _, _) | (_, 17, _) => 17,
        _ if total > MAX_RECORDS => 3,
        (_, _, Room::Short) => 18,
        _ => 0,
    }
}

/// Both lists of records drawn in turns, as a file.
fn drawn(first: &[u8], second: &[u8]) -> Vec<u8> {
    let (mut one, mut other) = (first[3..].chunks(2), second[3..].chunks(2));
    let mut records = Vec::new();
    loop {
        match (one.next(), other.next()) {
            (None, None) => break,
            (a, b) => [a, b].into_iter().flatten().for_each(|r| records.extend(r)),
        }
    }
    let count = (records.len() / 2) as u16;
    [&[1], &count.to_be_bytes()[..], &records].concat()
}

pub struct Merger {
    memory: [Guarded; 2],
    out: Guarded,
    twin: Vec<u8>,
    reached: BTreeMap<String, u64>,
    pub pairs: u64,
}

impl Default for Merger {
    fn default() -> Self {
        Merger {
            memory: [Guarded::new(LONGEST), Guarded::new(LONGEST)],
            out: Guarded::new(LONGEST + SLACK),
            twin: Vec::new(),
            reached: BTreeMap::new(),
            pairs: 0,
        }
    }
}

impl Merger {
    /// Every thread that is not a file's, then every pair of faults, every shape and every length of the buffer.
    pub fn systematic(&mut self, rng: &mut Rng) -> Result<(), String> {
        for (at, thread) in strangers() {
            let mut files = [whole(9, 0, rng), whole(7, 2, rng)];
            files[at][3 + 2 * rng.below(7)] = 16 * thread + rng.below(16) as u8;
            let told = format!("thread {thread} in file {at}");
            self.compare(&files[0], &files[1], 99, 17, rng)
                .map_err(|why| format!("{why} ({told})"))?;
            self.pairs += 1;
            *self.reached.entry(told).or_default() += 1;
        }
        for first in FAULTS {
            for second in FAULTS {
                for shape in 0..SHAPES.len() {
                    for room in [Room::Exact, Room::Short, Room::Longer] {
                        self.pair((first, second), shape, room, rng)?;
                    }
                }
            }
        }
        Ok(())
    }

    /// Mostly without a fault.
    pub fn random(&mut self, rng: &mut Rng) -> Result<(), String> {
        let mut fault = || {
            if rng.once_in(6) {
                rng.pick(&FAULTS)
            } else {
                0
            }
        };
        let faults = (fault(), fault());
        // the long ones less often
        let shape = rng.weighted(&[1, 4, 4, 16, 16, 16, 1, 1]);
        let room = rng.pick(&[Room::Exact, Room::Exact, Room::Longer, Room::Short]);
        self.pair(faults, shape, room, rng)
    }

    fn pair(
        &mut self,
        faults: (u64, u64),
        shape: usize,
        room: Room,
        rng: &mut Rng,
    ) -> Result<(), String> {
        let (n, m) = counts(shape, rng);
        let (mut first, mut second) = (whole(n, 0, rng), whole(m, 2, rng));
        if !spoil(&mut first, faults.0, 0, rng) || !spoil(&mut second, faults.1, 2, rng) {
            return Ok(());
        }
        let need = 3 + 4 * n.min(m);
        let (length, name) = match room {
            Room::Exact => (need, "exact"),
            Room::Short if rng.once_in(3) => (rng.below(need), "short"),
            Room::Short => (need - 1, "short"),
            Room::Longer => (need + 1 + rng.below(SLACK), "longer"),
        };
        let told = format!(
            "faults {} and {}, {n} and {m} records, {length} bytes of {need}",
            faults.0, faults.1
        );
        let expected = number(faults, n + m, room);
        self.compare(&first, &second, length, expected, rng)
            .map_err(|why| format!("{why} ({told})"))?;
        self.pairs += 1;
        let mut reach = |what: String| *self.reached.entry(what).or_default() += 1;
        reach(format!("{} with a buffer that is {name}", SHAPES[shape]));
        reach(format!(
            "refusal {expected} with faults {} and {}",
            faults.0, faults.1
        ));
        if faults == (0, 0) {
            reach(format!(
                "refusal {expected}, {}, {name} buffer",
                SHAPES[shape]
            ));
        }
        Ok(())
    }

    /// One pair through both, with an output buffer of `room` bytes.
    fn compare(
        &mut self,
        first: &[u8],
        second: &[u8],
        room: usize,
        number: u64,
        rng: &mut Rng,
    ) -> Result<(), String> {
        let at_start = rng.once_in(2);
        let mut lend = |at: usize, file: &[u8]| -> Range<usize> {
            let place = self.memory[at].place(file.len(), at_start);
            self.memory[at].bytes_mut()[place.clone()].copy_from_slice(file);
            place
        };
        let places = [lend(0, first), lend(1, second)];
        let place = self.out.place(room, at_start);
        let (from, stride) = (rng.byte(), rng.byte() | 1);
        let size = self.out.bytes().len();
        self.twin.clear();
        self.twin
            .extend((0..size).map(|i| from.wrapping_add((i as u8).wrapping_mul(stride))));
        self.out.bytes_mut().copy_from_slice(&self.twin);
        let expected = reference::merge(first, second, &mut self.twin[place.clone()]);
        let got = library::merge(
            &self.memory[0].bytes()[places[0].clone()],
            &self.memory[1].bytes()[places[1].clone()],
            &mut self.out.bytes_mut()[place.clone()],
        );
        if expected.refusal != number {
            return Err(format!("the reference gives {expected:?}, not {number}"));
        }
        if got != expected {
            return Err(format!("Merge gives {got:?}, not {expected:?}"));
        }
        let bytes = self.out.bytes();
        if let Some(at) = (0..size).find(|&i| bytes[i] != self.twin[i]) {
            let offset = at as isize - place.start as isize;
            let (got, expected) = (bytes[at], self.twin[at]);
            return Err(format!("Merge: byte {offset} is {got}, not {expected}"));
        }
        for (at, file) in [first, second].into_iter().enumerate() {
            if self.memory[at].bytes()[places[at].clone()] != *file {
                return Err(format!("Merge wrote to file {at}"));
            }
        }
        if got.refusal == 0 {
            return appended(first, second, &bytes[place], got);
        }
        Ok(())
    }

    /// What was never reached, of all that must be.
    pub fn missing(&self) -> Vec<String> {
        let mut needed: Vec<String> = strangers()
            .map(|(at, thread)| format!("thread {thread} in file {at}"))
            .collect();
        for shape in SHAPES {
            for name in ["exact", "short", "longer"] {
                needed.push(format!("{shape} with a buffer that is {name}"));
                let number = match (shape, name) {
                    ("4,097 in total", _) => 3,
                    (_, "short") => 18,
                    _ => 0,
                };
                needed.push(format!("refusal {number}, {shape}, {name} buffer"));
            }
        }
        for first in FAULTS {
            for second in FAULTS {
                let rooms = [(MAX_RECORDS, Room::Exact), (MAX_RECORDS, Room::Short)];
                let all = rooms.into_iter().chain([(MAX_RECORDS + 1, Room::Short)]);
                for (total, room) in all {
                    let number = number((first, second), total, room);
                    needed.push(format!("refusal {number} with faults {first} and {second}"));
                }
            }
        }
        needed.retain(|what| !self.reached.contains_key(what));
        needed
    }
}

/// The output with the part appended is the merged file, and Run has no fault to find in it.
fn appended(first: &[u8], second: &[u8], out: &[u8], got: MergeReport) -> Result<(), String> {
    let longer = [first, second][got.file as usize];
    let part = &longer[got.start as usize..][..got.length as usize];
    if got.start + got.length != longer.len() as u64 {
        return Err("the part does not go to the end of its file".into());
    }
    let length = first.len() + second.len() - 3;
    let merged = [&out[..length - part.len()], part].concat();
    if merged != drawn(first, second) {
        return Err("Merge: the merged file is not the two drawn in turns".into());
    }
    let run = library::run(&merged, &mut vec![0; 2 * MAX_RECORDS]);
    if (1..=5).contains(&run.refusal) {
        return Err(format!("Run refuses the merged file with {}", run.refusal));
    }
    Ok(())
}

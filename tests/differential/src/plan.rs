//! A schedule under construction, of any version, carried out on a reference bench as it grows.

use reference::{
    sizes, AnyRows, Bench, CAPACITY, DEEPEST, INSERT, JOIN, MAX_RECORDS, RANGE, STEP, STORES,
};

/// No operation alone takes more steps than this: a query over 63 bases, with what it helps on its way.
const LONGEST_ALONE: usize = 2000;

#[derive(Clone)]
pub struct Plan {
    version: u8,
    records: Vec<u8>,
    bench: Bench<AnyRows>,
    inserts: u16,
    refused: bool,
}

impl Plan {
    pub fn new(version: u8) -> Self {
        Plan {
            version,
            records: Vec::new(),
            bench: Bench::of(version),
            inserts: 0,
            refused: false,
        }
    }

    pub fn count(&self) -> usize {
        self.records.len() / sizes(self.version)[0]
    }

    /// Nothing more can be added or carried out.
    pub fn is_over(&self) -> bool {
        self.refused || self.count() == MAX_RECORDS
    }

    pub fn place(&self, thread: u8) -> u8 {
        self.bench.place(thread.into())
    }

    pub fn is_idle(&self, thread: u8) -> bool {
        self.place(thread) == 0
    }

    /// The frames of a thread.
    pub fn frames(&self, thread: u8) -> usize {
        self.bench.frames(thread.into()).len()
    }

    /// Stores left.
    pub fn stores_left(&self) -> usize {
        STORES - self.bench.shown()
    }

    /// Node numbers left.
    pub fn left(&self) -> usize {
        CAPACITY - self.bench.used()
    }

    /// Adds a record as it is, unless the file is full; version 1 leaves the last two bytes out.
    pub fn record(&mut self, first: u8, second: u8, extra: u16) {
        if self.count() == MAX_RECORDS {
            return;
        }
        self.records.extend([first, second]);
        let extra = if self.version > 1 { extra } else { 0 };
        if self.version > 1 {
            self.records.extend(extra.to_be_bytes());
        }
        if !self.refused {
            let too_high = self.version == 1 && first & 15 > JOIN;
            self.refused = too_high || self.bench.record(first, second, extra).is_err();
        }
    }

    /// A start; each insert has another depth, now and then the least or the greatest.
    pub fn start(&mut self, thread: u8, action: u8, station: u8) {
        if action != INSERT {
            return self.record(16 * thread + action, station, 0);
        }
        self.inserts += 1;
        let depth = match self.inserts % 7 {
            3 => 0,
            5 => DEEPEST,
            _ => self.inserts.wrapping_mul(7919) % (DEEPEST + 1),
        };
        self.record(16 * thread + action, station, depth);
    }

    /// The start of a range query.
    pub fn ask(&mut self, thread: u8, lower: u8, upper: u8) {
        self.record(16 * thread + RANGE, lower, upper.into());
    }

    pub fn step(&mut self, thread: u8) {
        self.record(16 * thread + STEP, 0, 0);
    }

    /// Steps a thread if it is busy.
    pub fn advance(&mut self, thread: u8) {
        if !self.is_over() && !self.is_idle(thread) {
            self.step(thread);
        }
    }

    /// Steps a thread until it is idle or at a place that `stop` names.
    pub fn until(&mut self, thread: u8, stop: impl Fn(u8) -> bool) {
        let mut steps = 0;
        while !self.is_over() && !self.is_idle(thread) && !stop(self.place(thread)) {
            self.step(thread);
            steps += 1;
            assert!(steps < LONGEST_ALONE, "thread {thread} does not end");
        }
    }

    pub fn finish(&mut self, thread: u8) {
        self.until(thread, |_| false);
    }

    pub fn finish_all(&mut self) {
        (0..4).for_each(|thread| self.finish(thread));
    }

    /// An operation of an idle thread with nobody in between.
    pub fn alone(&mut self, thread: u8, action: u8, station: u8) {
        if !self.is_over() && self.is_idle(thread) {
            self.start(thread, action, station);
            self.finish(thread);
        }
    }

    /// A range query of an idle thread with nobody in between.
    pub fn query(&mut self, thread: u8, lower: u8, upper: u8) {
        if !self.is_over() && self.is_idle(thread) {
            self.ask(thread, lower, upper);
            self.finish(thread);
        }
    }

    /// The schedule file.
    pub fn file(&self) -> Vec<u8> {
        let count = self.count() as u16;
        [&[self.version], &count.to_be_bytes()[..], &self.records].concat()
    }
}

//! What version 2 brings: ways that its files must reach besides those of `coverage` and `ranges`; and the places at
//! which comparisons fail where several threads write, as they must not where one does (`profiles`).

use crate::answers::Record;
use reference::{AnyRows, Bench, ACTIONS, DEEPEST, INSERT, JOIN, RANGE, STATIONS, STEP, THREADS};
use std::collections::BTreeMap;

/// The places at which a comparison can fail where several threads write.
const LOST: [u8; 21] = [10, 11, 12, 13, 16, 21, 25, 27, 28, 29, 30, 33, 35, 42, 43, 44, 46, 47, 48, 49, 50];

/// Faults of one record by their numbers, the first of which refuses it.
const PAIRS: [(u8, u8); 16] = [
    (7, 8),
    (7, 9),
    (7, 14),
    (7, 10),
    (8, 9),
    (8, 10),
    (8, 11),
    (9, 14),
    (9, 10),
    (9, 11),
    (14, 11),
    (7, 15),
    (9, 15),
    (15, 11),
    (10, 11),
    (10, 12),
];

const OTHERS: [&str; 26] = [
    "an insert puts a station in at depth 0",
    "an insert puts a station in at depth 9999",
    "an insert replaces another depth",
    "an insert replaces another depth while a join prepares",
    "an insert replaces another depth while a join completes",
    "an insert of a station at its own depth",
    "a lookup finds depth 0",
    "a lookup finds depth 9999",
    "a lookup finds another depth",
    "a lookup finds a depth that is the station's no more",
    "a lookup finds a station that is out by then",
    "a split carries several depths",
    "a join carries several depths",
    "a step with a third byte",
    "a step with a fourth byte",
    "a start with a third byte",
    "a start with a fourth byte",
    "depth 10000 is refused",
    "version 2 with the length of version 1",
    "version 1 with the length of version 2",
    "version 4 is refused",
    "version 0 is refused",
    "an upper end of 64 is refused",
    "an upper end one below the station is refused",
    "an upper end whose last byte alone is fine is refused",
    "version 3 with the length of version 1",
];

#[derive(Default)]
pub struct Ways {
    reached: BTreeMap<String, u64>,
    /// The records are of version 2.
    deep: bool,
    preparing: bool,
    completing: bool,
    /// Comparisons that failed, by place.
    lost: BTreeMap<u8, u64>,
}

impl Ways {
    fn reach(&mut self, what: &str) {
        match self.reached.get_mut(what) {
            Some(count) => *count += 1,
            None => drop(self.reached.insert(what.into(), 1)),
        }
    }

    /// A file begins.
    pub fn header(&mut self, file: &[u8]) {
        self.deep = file.first() == Some(&2);
        let [version, high, low, rest @ ..] = file else {
            return;
        };
        let count = usize::from(u16::from_be_bytes([*high, *low]));
        match (version, rest.len()) {
            (1, length) if count > 0 && length == 4 * count => self.reach(OTHERS[19]),
            (2, length) if count > 0 && length == 2 * count => self.reach(OTHERS[18]),
            (3, length) if count > 0 && length == 2 * count => self.reach(OTHERS[25]),
            (4, _) => self.reach(OTHERS[20]),
            (0, _) => self.reach(OTHERS[21]),
            _ => {}
        }
    }

    /// Notes how far joins have come before a record.
    pub fn places(&mut self, bench: &Bench<AnyRows>) {
        let at = |from: u8, to: u8| (0..THREADS).any(|t| (from..=to).contains(&bench.place(t)));
        self.preparing = at(26, 35);
        self.completing = at(40, 51);
    }

    /// A comparison of a step at this place failed.
    pub fn lost(&mut self, place: u8) {
        *self.lost.entry(place).or_default() += 1;
    }

    /// An insert finished; `was` is what the plain table said before it.
    pub fn inserted(&mut self, was: Option<u16>, depth: u16) {
        if !self.deep {
            return;
        }
        match depth {
            0 => self.reach(OTHERS[0]),
            DEEPEST => self.reach(OTHERS[1]),
            _ => {}
        }
        if was == Some(depth) {
            self.reach(OTHERS[5]);
        } else if was.is_some() {
            self.reach(OTHERS[2]);
            if self.preparing {
                self.reach(OTHERS[3]);
            }
            if self.completing {
                self.reach(OTHERS[4]);
            }
        }
    }

    /// A lookup said yes; `now` is what the plain table says after it.
    pub fn found(&mut self, depth: u16, now: Option<u16>) {
        if !self.deep {
            return;
        }
        self.reach(match depth {
            0 => OTHERS[6],
            DEEPEST => OTHERS[7],
            _ => OTHERS[8],
        });
        match now {
            None => self.reach(OTHERS[10]),
            Some(now) if now != depth => self.reach(OTHERS[9]),
            _ => {}
        }
    }

    /// A split, or else a join, made its nodes while the tree had stations at so many different depths.
    pub fn carried(&mut self, split: bool, depths: usize) {
        if self.deep && depths > 1 {
            self.reach(OTHERS[if split { 11 } else { 12 }]);
        }
    }

    /// A record was refused.
    pub fn refused(&mut self, number: u8, record: Record, busy: bool) {
        if !self.deep {
            return;
        }
        let action = record.action();
        let start = action != STEP;
        let faults = [
            (7, record.thread() >= THREADS),
            (8, action > RANGE),
            (9, start && record.second > 63),
            (14, action == INSERT && record.extra > DEEPEST),
            (15, action == RANGE && (record.extra >= STATIONS.into() || record.extra < record.second.into())),
            (10, if start { unused_by(action) && record.extra > 0 } else { record.second > 0 || record.extra > 0 }),
            (11, start && busy && record.thread() < THREADS),
            (12, !start && !busy),
        ];
        for (fault, _) in faults.into_iter().filter(|&(fault, has)| has && fault != number) {
            self.reach(&pair(number, fault));
        }
        if number == 10 && start {
            self.reach(&unused(action));
        }
        let bytes = [record.extra > 255 && record.extra % 256 == 0, (1..256).contains(&record.extra)];
        if number == 10 && (start || record.second == 0) {
            let from = if start { 15 } else { 13 };
            for (at, _) in bytes.into_iter().enumerate().filter(|&(_, alone)| alone) {
                self.reach(OTHERS[from + at]);
            }
        }
        if number == 14 && record.extra == DEEPEST + 1 {
            self.reach(OTHERS[17]);
        }
        if number == 15 && record.extra == STATIONS.into() {
            self.reach(OTHERS[22]);
        }
        if number == 15 && record.extra.checked_add(1) == Some(record.second.into()) {
            self.reach(OTHERS[23]);
        }
        if number == 15 && (u16::from(record.second)..u16::from(STATIONS)).contains(&(record.extra % 256)) {
            self.reach(OTHERS[24]);
        }
    }

    /// Prints what was reached; hands back what was not.
    pub fn report(&self) -> Vec<String> {
        let pairs = PAIRS.into_iter().map(|(first, second)| pair(first, second));
        let actions = (1..=JOIN).filter(|&action| unused_by(action)).map(unused);
        let others = OTHERS.into_iter().map(String::from);
        let mut missing = Vec::new();
        println!("depths                                                      reached");
        for what in others.chain(pairs).chain(actions) {
            let count = self.reached.get(&what).copied().unwrap_or(0);
            println!("{what:56} {count:10}");
            if count == 0 {
                missing.push(what);
            }
        }
        println!("comparisons that failed, by place: {:?}", self.lost);
        let never = LOST.iter().filter(|place| !self.lost.contains_key(place));
        missing.extend(never.map(|place| format!("a comparison that fails at place {place}")));
        missing
    }
}

/// Whether the last two bytes of a start of this action must be 0.
fn unused_by(action: u8) -> bool {
    !matches!(action, STEP | INSERT | RANGE)
}

fn pair(first: u8, second: u8) -> String {
    format!("refusal {first} of a record that {second} is due to as well")
}

fn unused(action: u8) -> String {
    format!("refusal 10 of a {} with a depth", ACTIONS[usize::from(action)])
}

//! What range queries bring: every way out of the places 60 to 82 and of the old places that lead to a frame or back to
//! one, what a query meets there, who fills a store, how deep the helping is.

use crate::answers::Record;
use reference::{AnyRows, Bench, Kind, Node, Stage, RANGE, STEP, STORES, THREADS};
use std::collections::BTreeMap;

/// Every way out of the places 60 to 82, and those of 3, 15, 16, 40 and 51 that lead to a frame or back to one.
const WAYS: [&str; 99] = [
    "3 to 60, a frame more",
    "15 to 16, at a main, preparing",
    "15 to 16, at a neighbour, preparing",
    "15 to 40, at a main, completing",
    "15 to 40, at a neighbour, completing",
    "15 to 60, at a main, aborted",
    "15 to 60, at a main, done",
    "15 to 60, at a neighbour, aborted",
    "15 to 60, at a neighbour, done",
    "15 to 60, at a range base, set",
    "15 to 60, at a range base, unset, a frame more",
    "15 to 70, at a main, aborted",
    "15 to 70, at a main, done",
    "15 to 70, at a neighbour, aborted",
    "15 to 70, at a neighbour, done",
    "15 to 70, at a range base, set",
    "16 to 60",
    "16 to 70",
    "40 to 60",
    "40 to 70",
    "51 to 60",
    "51 to 70",
    "60 to 61",
    "60 to 62",
    "60 to 81, no base left",
    "60 to 81, the upper end reached",
    "60 to 82",
    "61 to 61",
    "61 to 62",
    "61 to 70",
    "61 to 81, the upper end reached",
    "61 to 82",
    "62 to 15, at a main, completing",
    "62 to 15, at a main, done",
    "62 to 15, at a main, preparing",
    "62 to 15, at a neighbour, completing",
    "62 to 15, at a neighbour, preparing",
    "62 to 15, at a range base, unset",
    "62 to 60, at a range base, unset",
    "62 to 64, at a main, aborted",
    "62 to 64, at a neighbour, aborted",
    "62 to 64, at a neighbour, done",
    "62 to 64, at a normal base",
    "62 to 64, at a range base, set",
    "64 to 60",
    "64 to 65",
    "64 to 66",
    "64 to 70",
    "64 to 81, no base left",
    "64 to 81, the upper end reached",
    "65 to 60",
    "65 to 70",
    "65 to 81, the upper end reached",
    "66 to 60",
    "66 to 67",
    "67 to 60",
    "67 to 70",
    "67 to 81, the upper end reached",
    "70 to 71",
    "70 to 72",
    "71 to 73",
    "71 to 74",
    "72 to 71",
    "72 to 72",
    "72 to 81",
    "73 to 73",
    "73 to 74",
    "74 to 70",
    "74 to 76",
    "74 to 81, the upper end reached",
    "74 to 82",
    "76 to 15, at a main, completing",
    "76 to 15, at a main, done",
    "76 to 15, at a main, preparing",
    "76 to 15, at a neighbour, completing",
    "76 to 15, at a neighbour, preparing",
    "76 to 15, at a range base, unset",
    "76 to 77, at a main, aborted",
    "76 to 77, at a neighbour, aborted",
    "76 to 77, at a neighbour, done",
    "76 to 77, at a normal base",
    "76 to 77, at a range base, set",
    "77 to 78",
    "77 to 79",
    "78 to 70, lost",
    "78 to 70, swapped",
    "78 to 81, the upper end reached",
    "79 to 70",
    "79 to 80",
    "80 to 70, lost",
    "80 to 70, swapped",
    "80 to 81, the upper end reached",
    "81 to 82, filled",
    "81 to 82, filled before",
    "82 to 0, no",
    "82 to 0, yes",
    "82 to 1",
    "82 to 60",
    "82 to 70",
];

/// The records of such a file are looked at before its run, and where none asks for a query it is lent no memory for one.
pub const SHORT: usize = 64;

/// What else must be reached.
const OTHERS: [&str; 31] = [
    "1 record, none asks",
    "64 records, none asks",
    "65 records, none asks",
    "1 record asks, of 1",
    "1 record asks, of 64, the first",
    "1 record asks, of 64, the last",
    "1 record asks, of 65, the last",
    "72 passes over a route that is not valid",
    "frames of a query: 2",
    "frames of a query: 3",
    "frames of a query: 4",
    "frames of an update: 1",
    "frames of an update: 2",
    "frames of an update: 3",
    "a query rides, and asks below the store's lower end",
    "a query rides, and asks from the store's lower end",
    "a store is filled by its query",
    "a store is filled by a query that rides",
    "a store is filled by a query that helps",
    "a store is filled by an update that helps",
    "a query finds what itself filled",
    "a query finds what another thread filled",
    "a query that rode finds what itself filled",
    "a query that rode finds what the store's query filled",
    "a query that rode finds what another thread filled",
    "a query that rode finds a station below the store's lower end",
    "a query finds the set of neither its first nor its last moment",
    "a query asks for one station",
    "a query asks for all stations",
    "a query finds station 0",
    "a query finds station 63",
];

pub struct Ranges {
    reached: BTreeMap<String, u64>,
    /// The records are of version 3, which has its own table.
    other: bool,
    before: Option<Before>,
    /// Of each store, whose query it is, and who filled it.
    owners: [usize; STORES],
    fillers: [usize; STORES],
}

impl Default for Ranges {
    fn default() -> Self {
        Ranges {
            reached: BTreeMap::new(),
            other: false,
            before: None,
            owners: [THREADS; STORES],
            fillers: [THREADS; STORES],
        }
    }
}

/// What there is to know of a step before it is taken.
struct Before {
    thread: usize,
    is_query: bool,
    place: u8,
    frames: usize,
    /// The top frame's store, whether it has no result, and the frame's lower end.
    store: Option<u8>,
    unset: bool,
    lower: u8,
    /// What the base in hand is.
    base: String,
    /// The top route of the stack is not valid, but its key is over the noted one.
    passes: bool,
    used: usize,
}

impl Ranges {
    fn reach(&mut self, what: impl Into<String>) {
        if !self.other {
            *self.reached.entry(what.into()).or_insert(0) += 1;
        }
    }

    /// A file begins.
    pub fn header(&mut self, file: &[u8]) {
        self.other = file.first() == Some(&3);
        let count = file.get(1..3).map_or(0, |bytes| u16::from_be_bytes([bytes[0], bytes[1]]).into());
        if file.first() != Some(&2) || file.len() != 3 + 4 * count {
            return;
        }
        let firsts: Vec<u8> = file[3..].chunks_exact(4).map(|record| record[0]).collect();
        let asking: Vec<usize> = (0..firsts.len()).filter(|&k| firsts[k] & 15 == RANGE).collect();
        match (firsts.len(), &asking[..]) {
            (1, []) => self.reach("1 record, none asks"),
            (1, [_]) => self.reach("1 record asks, of 1"),
            (SHORT, []) => self.reach("64 records, none asks"),
            (SHORT, [0]) => self.reach("1 record asks, of 64, the first"),
            (SHORT, [k]) if k + 1 == SHORT => self.reach("1 record asks, of 64, the last"),
            (len, []) if len == SHORT + 1 => self.reach("65 records, none asks"),
            (len, [SHORT]) if len == SHORT + 1 => self.reach("1 record asks, of 65, the last"),
            _ => {}
        }
    }

    /// A record comes; `action` is what its thread has open.
    pub fn before(&mut self, bench: &Bench<AnyRows>, record: Record, action: u8) {
        self.before = None;
        let thread = record.thread();
        if record.action() != STEP || thread >= THREADS || bench.place(thread) == 0 {
            return;
        }
        let place = bench.place(thread);
        let top = bench.frames(thread).last();
        if top.is_none() && place != 3 && place != 15 {
            return;
        }
        let store = top.and_then(|frame| frame.store);
        self.before = Some(Before {
            thread,
            is_query: action == RANGE,
            place,
            frames: bench.frames(thread).len(),
            store,
            unset: store.is_some_and(|store| bench.result(store).is_none()),
            lower: top.map_or(0, |frame| frame.lower),
            base: top.map_or(String::new(), |frame| described(bench, frame.base)),
            passes: top.is_some_and(|frame| match frame.stack.entries().last() {
                Some(&id) if place == 72 => match bench.node(id) {
                    Node::Route(route) => !route.valid && route.key > frame.key,
                    Node::Base(_) => false,
                },
                _ => false,
            }),
            used: bench.used(),
        });
    }

    /// The record was carried out; with the set of the row that it added.
    pub fn after(&mut self, bench: &Bench<AnyRows>, set: Option<u64>) {
        let Some(before) = self.before.take() else {
            return;
        };
        let Before { thread, place, .. } = before;
        let (next, frames) = (bench.place(thread), bench.frames(thread).len());
        let top = bench.frames(thread).last();
        if before.frames == 0 && frames == 0 {
            return;
        }
        let mut way = format!("{place} to {next}");
        if matches!(place, 15 | 62 | 76) {
            way = format!("{way}, at {}", before.base);
        }
        way += match (place, next, top) {
            (60.. | 15, 81, Some(frame)) if frame.stack.entries().is_empty() && place != 72 => ", no base left",
            (60.. | 15, 81, Some(_)) if place != 72 => ", the upper end reached",
            (3 | 15, 60, _) if frames > before.frames => ", a frame more",
            (78 | 80, 70, _) if bench.used() > before.used => ", swapped",
            (78 | 80, 70, _) => ", lost",
            (81, _, _) if before.unset => ", filled",
            (81, _, _) => ", filled before",
            (82, 0, _) if set != Some(0) => ", yes",
            (82, 0, _) => ", no",
            _ => "",
        };
        // the places of a join's completion are no other for a thread that has frames
        if !(41..=50).contains(&place) && next != 41 {
            self.reach(way);
        }
        if frames > before.frames {
            let who = if before.is_query { "a query" } else { "an update" };
            self.reach(format!("frames of {who}: {frames}"));
        }
        if before.passes {
            self.reach("72 passes over a route that is not valid");
        }
        match (place, top) {
            (62, Some(frame)) if next == 60 => {
                let rides = if frame.lower > before.lower { "below" } else { "from" };
                self.reach(format!("a query rides, and asks {rides} the store's lower end"));
            }
            (64 | 65 | 67, Some(frame)) if before.store.is_none() && frame.store.is_some() => {
                self.owners[usize::from(frame.store.unwrap_or(0))] = thread;
            }
            (81, _) => self.filled(&before),
            _ => {}
        }
        if let (82, Some(set)) = (place, set) {
            self.finished(&before, set);
        }
    }

    fn filled(&mut self, before: &Before) {
        let store = usize::from(before.store.unwrap_or(0));
        if !before.unset {
            return;
        }
        self.fillers[store] = before.thread;
        self.reach(match (before.is_query, before.frames) {
            (true, 1) if self.owners[store] == before.thread => "a store is filled by its query",
            (true, 1) => "a store is filled by a query that rides",
            (true, _) => "a store is filled by a query that helps",
            (false, _) => "a store is filled by an update that helps",
        });
    }

    fn finished(&mut self, before: &Before, set: u64) {
        let store = usize::from(before.store.unwrap_or(0));
        let rides = self.owners[store] != before.thread;
        let by = match self.fillers[store] {
            filler if filler == before.thread => "itself",
            filler if filler == self.owners[store] => "the store's query",
            _ => "another thread",
        };
        let who = if rides { "a query that rode" } else { "a query" };
        self.reach(format!("{who} finds what {by} filled"));
        if rides && set & ((1 << before.lower) - 1) != 0 {
            self.reach("a query that rode finds a station below the store's lower end");
        }
    }

    /// A query starts.
    pub fn asks(&mut self, lower: u8, upper: u16) {
        if upper == lower.into() {
            self.reach("a query asks for one station");
        }
        if (lower, upper) == (0, 63) {
            self.reach("a query asks for all stations");
        }
    }

    /// A query found `set`; the plain set, cut to its ends, was one of `seen` at the moments of its span.
    pub fn answered(&mut self, set: u64, seen: &[u64]) {
        if seen.first() != Some(&set) && seen.last() != Some(&set) {
            self.reach("a query finds the set of neither its first nor its last moment");
        }
        for station in [0, 63] {
            if set >> station & 1 != 0 {
                self.reach(format!("a query finds station {station}"));
            }
        }
    }

    /// Prints what was reached; hands back what was not, and the ways that are not listed.
    pub fn report(&self) -> Vec<String> {
        println!("range queries                                                     reached");
        let mut wrong = Vec::new();
        for what in WAYS.into_iter().chain(OTHERS) {
            let count = self.reached.get(what).copied().unwrap_or(0);
            println!("{what:62} {count:10}");
            if count == 0 {
                wrong.push(format!("{what} was never reached"));
            }
        }
        let listed = |what: &str| WAYS.contains(&what) || OTHERS.contains(&what);
        let others = self.reached.keys().filter(|what| !listed(what));
        wrong.extend(others.map(|what| format!("{what} was reached and is not listed")));
        wrong
    }
}

/// What a base is: its kind, and how far its join or query has come.
fn described(bench: &Bench<AnyRows>, id: u8) -> String {
    let stage = |main: u8| match bench.node(main) {
        Node::Base(reference::Base {
            kind: Kind::Main { stage, .. },
            ..
        }) => match stage {
            Stage::Preparing => "preparing",
            Stage::Union(_) => "completing",
            Stage::Aborted => "aborted",
            Stage::Done => "done",
        },
        _ => "of no main",
    };
    match bench.node(id) {
        Node::Route(_) => "a route".into(),
        Node::Base(base) => match base.kind {
            Kind::Normal => "a normal base".into(),
            Kind::Main { .. } => format!("a main, {}", stage(id)),
            Kind::Neighbour { main } => format!("a neighbour, {}", stage(main)),
            Kind::Range(asked) if bench.result(asked.store).is_some() => "a range base, set".into(),
            Kind::Range(_) => "a range base, unset".into(),
        },
    }
}

//! What version 3 brings: the count rule, checked of the reference at every moment; and every way out of the places 4, 5
//! and 19 and into them, every count, what happens while the count is not 0 and what a search finds that was counted.

use crate::answers::Record;
use reference::{AnyRows, Bench, ACTIONS, JOIN, LOOKUP, RANGE, SPLIT, STEP, STOP_PLACES, THREADS};
use std::collections::BTreeMap;

/// Every way into the places 4, 5 and 19 and out of them; every count.
const WAYS: [&str; 35] = [
    "2 to 2, counted",
    "2 to 2, not counted",
    "2 to 4",
    "2 to 5",
    "3 to 19",
    "4 to 2, lookup",
    "4 to 2, insert",
    "4 to 2, remove",
    "4 to 2, split",
    "4 to 2, join",
    "4 to 5, lookup",
    "4 to 5, insert",
    "4 to 5, remove",
    "4 to 5, split",
    "4 to 5, join",
    "5 to 0, lookup, no",
    "5 to 0, lookup, yes",
    "5 to 3, insert",
    "5 to 3, remove",
    "5 to 3, split",
    "5 to 3, join",
    "19 to 20, the count 0",
    "19 to 0, the count 1",
    "19 to 0, the count 2",
    "19 to 0, the count 3",
    "4 makes the count 1",
    "4 makes the count 2",
    "4 makes the count 3",
    "4 makes the count 4",
    "5 makes the count 0",
    "5 makes the count 1",
    "5 makes the count 2",
    "5 makes the count 3",
    "19 to 20, a search stands at 4",
    "19 to 20, a search is past 5",
];

/// What else must be reached.
const OTHERS: [&str; 24] = [
    "counted again, back to 1 from 3",
    "counted again, back to 1 from 15",
    "counted again, back to 1 from 16",
    "counted again, back to 1 from 40",
    "counted again, back to 1 from 51",
    "counted again, back to 1 from 82",
    "counted, back to 1, not counted again",
    "not counted, back to 1, counted",
    "a join is past 19 while the count is not 0",
    "a join says yes while the count is not 0",
    "a join stands down while the count is not 0",
    "a split says yes while the count is not 0",
    "a search below the 8th route finishes while the count is not 0",
    "a helper goes on while the count is not 0",
    "a query goes on while the count is not 0",
    "a query reads the child of an 8th route",
    "a search that helped a query is counted",
    "5 finds a depth that is the station's no more",
    "5 finds a station that is out by then",
    "5 misses a station that is in by then",
    "a step is refused while the count is not 0",
    "the records end, the count 4",
    "all are idle after a count of 4",
    "a search is at its 20th route or later",
];

/// Of a thread's operation.
#[derive(Clone, Copy, Default)]
struct Search {
    /// It is between 4 and 5.
    between: bool,
    /// Its search since 1 was counted, and one before that.
    counted: bool,
    earlier: bool,
    /// The place that led back to 1, and routes read since.
    from: u8,
    routes: usize,
    /// It was in a frame of its own or of another's query.
    helped: bool,
}

#[derive(Default)]
pub struct Stops {
    reached: BTreeMap<String, u64>,
    /// The records are of version 3.
    on: bool,
    searches: [Search; THREADS],
    most: u8,
    before: Option<Before>,
}

struct Before {
    thread: usize,
    action: u8,
    place: u8,
    count: u8,
    frames: usize,
}

impl Stops {
    fn reach(&mut self, what: impl Into<String>) {
        *self.reached.entry(what.into()).or_default() += 1;
    }

    /// A file begins.
    pub fn header(&mut self, file: &[u8]) {
        self.on = file.first() == Some(&3);
        self.searches = Default::default();
        self.most = 0;
    }

    /// A record comes; `action` is what its thread has open.
    pub fn before(&mut self, bench: &Bench<AnyRows>, record: Record, action: u8) {
        let thread = record.thread();
        let stepped = record.action() == STEP && thread < THREADS && bench.place(thread) != 0;
        self.before = (self.on && stepped).then(|| Before {
            thread,
            action,
            place: bench.place(thread),
            count: bench.count(),
            frames: bench.frames(thread).len(),
        });
    }

    /// A record was carried out; with the answer of the row that it added. The count must be that of the searches
    /// between the two steps, and with the stop off no thread may be where it is changed or read.
    pub fn after(&mut self, bench: &Bench<AnyRows>, answer: Option<u8>) -> Result<(), String> {
        if !self.on {
            let idle = (0..THREADS).all(|thread| !STOP_PLACES.contains(&bench.place(thread)));
            let off = bench.count() == 0 && idle;
            return off.then_some(()).ok_or_else(|| "the stop is off, but searches are counted".into());
        }
        if let Some(before) = self.before.take() {
            self.step(bench, &before, answer);
        }
        let between = self.searches.iter().filter(|search| search.between).count();
        if usize::from(bench.count()) != between {
            return Err(format!("the count is {}, and {between} searches are between 4 and 5", bench.count()));
        }
        self.most = self.most.max(bench.count());
        if self.most == 4 && (0..THREADS).all(|thread| bench.place(thread) == 0) {
            self.reach("all are idle after a count of 4");
        }
        Ok(())
    }

    fn step(&mut self, bench: &Bench<AnyRows>, before: &Before, answer: Option<u8>) {
        let &Before { thread, action, place, count, frames } = before;
        let (next, name) = (bench.place(thread), ACTIONS[usize::from(action)]);
        let mut search = self.searches[thread];
        match (place, next) {
            (1, _) => search.routes = 0,
            (2, _) => search.routes += 1,
            _ => {}
        }
        match (place, next) {
            (2, 2) if search.counted => self.reach("2 to 2, counted"),
            (2, 2) => self.reach("2 to 2, not counted"),
            (2, 4 | 5) | (3, 19) => self.reach(format!("{place} to {next}")),
            (4, _) => {
                self.reach(format!("4 to {next}, {name}"));
                self.reach(format!("4 makes the count {}", bench.count()));
                if search.from > 0 && search.earlier {
                    self.reach(format!("counted again, back to 1 from {}", search.from));
                } else if search.from > 0 {
                    self.reach("not counted, back to 1, counted");
                }
                if search.helped {
                    self.reach("a search that helped a query is counted");
                }
                search.between = true;
                search.counted = true;
            }
            (5, _) => {
                let told = ["no", "yes"].get(usize::from(answer.unwrap_or(0)));
                let told = if next == 0 { format!(", {}", told.unwrap_or(&"?")) } else { String::new() };
                self.reach(format!("5 to {next}, {name}{told}"));
                self.reach(format!("5 makes the count {}", bench.count()));
                search.between = false;
            }
            (19, 0) => self.reach(format!("19 to 0, the count {count}")),
            (19, _) => {
                self.reach(format!("19 to {next}, the count {count}"));
                let others = (0..THREADS).filter(|&other| other != thread);
                if others.clone().any(|other| bench.place(other) == 4) {
                    self.reach("19 to 20, a search stands at 4");
                }
                if others.clone().any(|other| bench.place(other) == 3 && self.searches[other].counted) {
                    self.reach("19 to 20, a search is past 5");
                }
            }
            _ => {}
        }
        if search.counted && search.routes == 20 {
            self.reach("a search is at its 20th route or later");
        }
        if count > 0 {
            match (action, place, answer) {
                (JOIN, 20.., Some(1)) => self.reach("a join says yes while the count is not 0"),
                (JOIN, 38, _) => self.reach("a join stands down while the count is not 0"),
                (SPLIT, _, Some(1)) => self.reach("a split says yes while the count is not 0"),
                (LOOKUP, 2, Some(_)) => self.reach("a search below the 8th route finishes while the count is not 0"),
                (JOIN, 20.., _) => self.reach("a join is past 19 while the count is not 0"),
                (RANGE, 60.., _) => self.reach("a query goes on while the count is not 0"),
                (_, 40..60, _) => self.reach("a helper goes on while the count is not 0"),
                _ => {}
            }
        }
        let deep = bench.frames(thread).last().is_some_and(|frame| frame.stack.entries().len() > 8);
        if action == RANGE && place == 61 && deep {
            self.reach("a query reads the child of an 8th route");
        }
        search.helped |= frames > 0;
        if place != 1 && next == 1 {
            if search.from > 0 && search.earlier && !search.counted {
                self.reach("counted, back to 1, not counted again");
            }
            search.earlier |= search.counted;
            search.counted = false;
            search.from = place;
        }
        if next == 0 {
            if search.earlier && !search.counted {
                self.reach("counted, back to 1, not counted again");
            }
            search = Search::default();
        }
        self.searches[thread] = search;
    }

    /// A lookup finished; `found` is what it says of its station, `now` what the plain table says after it.
    pub fn looked(&mut self, place: u8, found: Option<u16>, now: Option<u16>) {
        if !self.on || place != 5 {
            return;
        }
        match (found, now) {
            (Some(_), None) => self.reach("5 finds a station that is out by then"),
            (Some(depth), Some(now)) if depth != now => self.reach("5 finds a depth that is the station's no more"),
            (None, Some(_)) => self.reach("5 misses a station that is in by then"),
            _ => {}
        }
    }

    /// A record was refused.
    pub fn refused(&mut self, number: u8, bench: &Bench<AnyRows>) {
        if self.on && bench.count() > 0 && number == 13 {
            self.reach("a step is refused while the count is not 0");
        }
    }

    /// The records end.
    pub fn end(&mut self, bench: &Bench<AnyRows>) {
        if self.on && bench.count() == 4 {
            self.reach("the records end, the count 4");
        }
    }

    /// Prints what was reached; hands back what was not, and the ways that are not listed.
    pub fn report(&self) -> Vec<String> {
        println!("the stop                                                          reached");
        let mut wrong = Vec::new();
        for what in WAYS.into_iter().chain(OTHERS) {
            let count = self.reached.get(what).copied().unwrap_or(0);
            println!("{what:62} {count:10}");
            if count == 0 {
                wrong.push(format!("{what} was never reached"));
            }
        }
        let listed = |what: &str| WAYS.contains(&what) || OTHERS.contains(&what);
        let others = self.reached.keys().filter(|what| !listed(what));
        wrong.extend(others.map(|what| format!("{what} was reached and is not listed")));
        wrong
    }
}

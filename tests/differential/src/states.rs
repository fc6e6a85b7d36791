//! What the states that were compared have shown, read off their bytes as docs/STATE.md lays them out; what must be shown.

use reference::{
    StateReport, CAPACITY, FRAME, NODE, PLACES, PLACE_LIMIT, RANGE_PLACES, STATE_HEAD, STOP_PLACES, STORE, THREAD,
    THREADS, THREAD_HEAD,
};
use std::collections::BTreeMap;

const KINDS: [&str; 5] = ["normal", "route", "main", "neighbour", "range"];
const STAGES: [&str; 5] = ["", "preparing", "a node number", "aborted", "done"];

/// How often each thing was shown.
pub struct States {
    places: [u64; PLACE_LIMIT],
    seen: BTreeMap<String, u64>,
    pub compared: u64,
}

impl Default for States {
    fn default() -> Self {
        States {
            places: [0; PLACE_LIMIT],
            seen: BTreeMap::new(),
            compared: 0,
        }
    }
}

impl States {
    /// A state after `count` records of a file that says it has `all` was written to `bytes`, or refused.
    pub fn saw(&mut self, report: &StateReport, count: u64, all: u64, bytes: &[u8]) {
        self.compared += 1;
        if report.length == 0 {
            self.count(format!("refusal {}", report.refusal));
            return;
        }
        self.count(
            match (report.refusal, count) {
                (0, 0) => "no record",
                (0, count) if count > all => "more records than there are",
                (0, count) if count == all => "all records",
                (0, _) => "some records",
                _ => "a record refused among them",
            }
            .into(),
        );
        let state = &bytes[..report.length as usize];
        for thread in state[STATE_HEAD..STATE_HEAD + THREADS * THREAD].chunks(THREAD) {
            self.thread(thread);
        }
        let nodes_at = STATE_HEAD + THREADS * THREAD;
        let used = usize::from(u16::from_be_bytes([state[6], state[7]]));
        let stores_at = nodes_at + used * NODE;
        for node in state[nodes_at..stores_at].chunks(NODE) {
            self.node(node);
        }
        for store in state[stores_at..].chunks(STORE) {
            let is = ["unset", "set"][usize::from(store[0])];
            self.count(format!("a store that is {is}"));
        }
        if used == CAPACITY {
            self.count("all node numbers used".into());
        }
        self.count(format!("a count of {}", state[10]));
    }

    fn count(&mut self, what: String) {
        *self.seen.entry(what).or_default() += 1;
    }

    fn thread(&mut self, bytes: &[u8]) {
        self.places[usize::from(bytes[0])] += 1;
        if (33..=36).contains(&bytes[0]) {
            let has = ["no", "a"][usize::from(bytes[20])];
            self.count(format!("{has} grandparent at {}", bytes[0]));
        }
        if (22..=34).contains(&bytes[0]) {
            self.count(format!("side {}", bytes[6]));
        }
        if (40..=51).contains(&bytes[0]) {
            self.count(["a helper", "an owner"][usize::from(bytes[7])].into());
        }
        let frames = usize::from(bytes[24]);
        if frames > 0 {
            self.count(format!("{frames} frames"));
        }
        for (index, frame) in bytes[THREAD_HEAD..].chunks(FRAME).take(frames).enumerate() {
            if index > 0 || bytes[0] < 60 {
                let begun = ["before its first base", "with a backup"][usize::from(frame[10])];
                self.count(format!("a frame that waits {begun}"));
            }
        }
    }

    fn node(&mut self, bytes: &[u8]) {
        let kind = KINDS[usize::from(bytes[0])];
        self.count(format!("a {kind} {}", ["cut off", "reachable"][usize::from(bytes[1])]));
        match kind {
            "route" => {
                self.count(format!("a route {}", ["not valid", "valid"][usize::from(bytes[13])]));
                self.count(format!("a route {}", ["not marked", "marked"][usize::from(bytes[14])]));
            }
            "main" => {
                self.count(format!("a main {}", STAGES[usize::from(bytes[26])]));
                if bytes[28] == 1 {
                    self.count(format!("a join with {} grandparent", ["no", "a"][usize::from(bytes[32])]));
                }
            }
            _ => {}
        }
    }

    /// Prints what the states of version 1 (0), 2 (1) or 3 (2) have shown; hands back what they have not.
    pub fn report(&self, index: usize) -> Vec<String> {
        let deep = index > 0;
        let mut all: Vec<String> = [
            "no record", "some records", "all records", "more records than there are", "a record refused among them",
            "a helper", "an owner", "side 1", "side 2", "no grandparent at 34", "no grandparent at 35", "a grandparent at 33",
            "a grandparent at 34", "a grandparent at 35", "a grandparent at 36", "a route valid", "a route not valid",
            "a route marked", "a route not marked", "a join with no grandparent", "a join with a grandparent",
            "all node numbers used", "refusal 1", "refusal 3", "refusal 4", "refusal 25", "a count of 0",
        ]
        .map(String::from)
        .into();
        all.extend(STAGES[1..].iter().map(|stage| format!("a main {stage}")));
        for kind in &KINDS[..if deep { 5 } else { 4 }] {
            all.extend([format!("a {kind} cut off"), format!("a {kind} reachable")]);
        }
        if deep {
            all.extend(["a store that is unset", "a store that is set"].map(String::from));
            all.extend(["a frame that waits before its first base", "a frame that waits with a backup"].map(String::from));
            all.extend((1..=3).map(|frames| format!("{frames} frames")));
        } else {
            all.push("refusal 2".into());
        }
        if index == 2 {
            all.extend((1..=4).map(|count| format!("a count of {count}")));
        }
        let ranges = if deep { &RANGE_PLACES[..] } else { &[] };
        let stops = if index == 2 { &STOP_PLACES[..] } else { &[] };
        println!("version {}: {} states", index + 1, self.compared);
        for (what, count) in &self.seen {
            println!("  {what}: {count}");
        }
        let places = PLACES.iter().chain(ranges).chain(stops);
        let unseen = places.filter(|&&place| self.places[usize::from(place)] == 0);
        let mut missing: Vec<String> = unseen.map(|place| format!("version {}: place {place} in a state", index + 1)).collect();
        all.retain(|what| !self.seen.contains_key(what));
        missing.extend(all.into_iter().map(|what| format!("version {}: {what} in a state", index + 1)));
        missing
    }
}

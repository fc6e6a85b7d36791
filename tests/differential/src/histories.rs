//! Histories through the library's and the reference's Judge: random ones that a set could have given, the same with
//! one answer changed, the bench's own runs, and files that are refused; every refusal and verdict must be reached.

use crate::guard::Guarded;
use crate::library;
use crate::rng::Rng;
use reference::{EVENT, HISTORY_HEADER, INSERT, LOOKUP, MAX_OPERATIONS, MAX_RECORDS, REMOVE, THREADS};

/// What a history can get.
const OUTCOMES: [(&str, u64, u64); 8] = [
    ("accepted", 0, 1),
    ("no order", 0, 0),
    ("refusal 1", 1, 0),
    ("refusal 2", 2, 0),
    ("refusal 4", 4, 0),
    ("refusal 21", 21, 0),
    ("refusal 22", 22, 0),
    ("refusal 23", 23, 0),
];
/// Pairs of faults in one file: the first of the two must win.
const PAIRS: [(u64, u64); 6] = [(1, 2), (2, 4), (4, 21), (21, 22), (21, 23), (22, 23)];

pub struct Histories {
    memory: Guarded,
    reached: [u64; OUTCOMES.len()],
    pairs: [u64; PAIRS.len()],
    /// Accepted histories with all twelve operations, and those of the bench's own runs.
    full: u64,
    own: u64,
    pub passed: u64,
    pub failures: Vec<String>,
}

/// The most bytes of a file that a message shows.
const SHOWN: usize = 64;

fn shown(file: &[u8]) -> String {
    let more = if file.len() > SHOWN { " .." } else { "" };
    format!("{:?}{more} ({} bytes)", &file[..file.len().min(SHOWN)], file.len())
}

/// The file of some events.
pub fn file(events: &[[u8; EVENT]]) -> Vec<u8> {
    let mut bytes = vec![1];
    bytes.extend((events.len() as u16).to_be_bytes());
    bytes.extend(events.iter().flatten());
    bytes
}

/// The events of some threads on a set: each operation is done at one moment between its start and its finish, so that
/// there is an order.
pub fn events(rng: &mut Rng, operations: usize, stations: usize, threads: usize) -> Vec<[u8; EVENT]> {
    #[derive(Clone, Copy)]
    enum Thread {
        Idle,
        Waits([u8; 3]),
        Done([u8; EVENT]),
    }
    let mut doing = [Thread::Idle; THREADS];
    let (mut set, mut started, mut finished) = (0u64, 0, 0);
    let mut events = Vec::new();
    while finished < operations {
        let thread = rng.below(threads);
        doing[thread] = match doing[thread] {
            Thread::Idle if started < operations => {
                let asked = [thread as u8, LOOKUP + rng.below(3) as u8, rng.below(stations) as u8];
                events.push([asked[0], asked[1], asked[2], 0]);
                started += 1;
                Thread::Waits(asked)
            }
            Thread::Idle => Thread::Idle,
            Thread::Waits([t, action, station]) => {
                let inside = set >> station & 1 != 0;
                match action {
                    INSERT => set |= 1 << station,
                    REMOVE => set &= !(1 << station),
                    _ => {}
                }
                let yes = inside != (action == INSERT);
                Thread::Done([t, action, station, 1 + u8::from(yes)])
            }
            Thread::Done(event) => {
                events.push(event);
                finished += 1;
                Thread::Idle
            }
        };
    }
    events
}

impl Histories {
    pub fn new() -> Self {
        Histories {
            memory: Guarded::new(HISTORY_HEADER + EVENT * 65535),
            reached: [0; OUTCOMES.len()],
            pairs: [0; PAIRS.len()],
            full: 0,
            own: 0,
            passed: 0,
            failures: Vec::new(),
        }
    }

    /// One file through both; gives the refusal and whether it is accepted.
    fn check(&mut self, file: &[u8], rng: &mut Rng) -> (u64, u64) {
        let place = self.memory.place(file.len(), rng.once_in(2));
        self.memory.bytes_mut()[place.clone()].copy_from_slice(file);
        let expected = reference::judge(file);
        let got = library::judge(&self.memory.bytes()[place.clone()]);
        if got != expected {
            let file = shown(file);
            self.failures.push(format!("Judge gives {got:?}, not {expected:?}, for {file}"));
        } else if self.memory.bytes()[place] != *file {
            self.failures.push("Judge wrote to the history".into());
        } else {
            self.passed += 1;
        }
        let outcome = (expected.refusal, expected.accepted);
        for (at, &(_, refusal, accepted)) in OUTCOMES.iter().enumerate() {
            self.reached[at] += u64::from((refusal, accepted) == outcome);
        }
        self.full += u64::from(expected.operations as usize == MAX_OPERATIONS);
        outcome
    }

    /// A history that must be accepted.
    fn must_pass(&mut self, file: &[u8], rng: &mut Rng) {
        if self.check(file, rng) != (0, 1) {
            self.failures.push(format!("not accepted: {}", shown(file)));
        }
    }

    /// The history of a run of the bench, where 02 says that it must pass.
    pub fn run_of(&mut self, schedule: &[u8], rng: &mut Rng) {
        let mut buffer = vec![0; HISTORY_HEADER + EVENT * MAX_RECORDS];
        let report = library::history(schedule, &mut buffer);
        if report.length == 0 {
            return;
        }
        let history = &buffer[..report.length as usize];
        let marks = || history[HISTORY_HEADER..].chunks_exact(EVENT);
        let starts = marks().filter(|e| e[3] == 0).count();
        let eligible = marks().all(|e| e[1] <= REMOVE) && 2 * starts == marks().count();
        if eligible && starts <= MAX_OPERATIONS {
            self.own += u64::from(starts > 1);
            self.must_pass(history, rng);
        } else {
            self.check(history, rng);
        }
    }

    /// A fault of each kind of a pair in one file.
    fn pair(&mut self, at: usize, rng: &mut Rng) {
        let operations = match at {
            3 | 5 => MAX_OPERATIONS + 1 + rng.below(3),
            _ => 1 + rng.below(6),
        };
        let mut some = events(rng, operations, 2, 4);
        let bad = rng.below(some.len());
        match at {
            3 | 4 => some[bad][rng.below(3)] = 200,
            5 => {
                some.pop();
            }
            _ => {}
        }
        let mut file = file(&some);
        match at {
            0 => file = vec![2; rng.below(HISTORY_HEADER)],
            1 => {
                file[0] = 2;
                file.pop();
            }
            2 => {
                file[HISTORY_HEADER] = 4;
                file.pop();
            }
            4 => {
                let last = file.len() - EVENT;
                file.truncate(last);
                let count = ((last - HISTORY_HEADER) / EVENT) as u16;
                file[1..HISTORY_HEADER].copy_from_slice(&count.to_be_bytes());
                if bad + 1 == some.len() || count == 0 {
                    return;
                }
            }
            _ => {}
        }
        if self.check(&file, rng).0 == PAIRS[at].0 {
            self.pairs[at] += 1;
        } else {
            self.failures.push(format!("{:?} in {}", PAIRS[at], shown(&file)));
        }
    }

    /// One round of random histories.
    pub fn round(&mut self, rng: &mut Rng) {
        let operations = rng.below(MAX_OPERATIONS + 1);
        let (stations, threads) = (1 + rng.below(3), 1 + rng.below(THREADS));
        let true_ones = events(rng, operations, stations, threads);
        self.must_pass(&file(&true_ones), rng);
        let finishes: Vec<usize> = (0..true_ones.len()).filter(|&i| true_ones[i][3] > 0).collect();
        if let Some(&at) = finishes.get(rng.below(finishes.len().max(1))) {
            let mut changed = true_ones.clone();
            changed[at][3] = 3 - changed[at][3];
            self.check(&file(&changed), rng);
        }
        let mut torn = file(&true_ones);
        match rng.below(4) {
            0 => torn.truncate(rng.below(torn.len() + 1)),
            1 => torn[rng.below(HISTORY_HEADER)] = rng.below(4) as u8,
            2 => {
                let at = rng.below(torn.len());
                torn[at] = torn[at].wrapping_add(1 + rng.below(4) as u8);
            }
            _ => {
                let most = true_ones.len().saturating_sub(1 + rng.below(3));
                torn = file(&true_ones[..most]);
            }
        }
        self.check(&torn, rng);
        let over = MAX_OPERATIONS + rng.below(3);
        let long = events(rng, over, stations, 4);
        self.check(&file(&long), rng);
        let pair = rng.below(PAIRS.len());
        self.pair(pair, rng);
    }

    /// Histories at the edges: none, and the most events that a header can state.
    pub fn edges(&mut self, rng: &mut Rng) {
        self.must_pass(&file(&[]), rng);
        let many: Vec<[u8; EVENT]> = (0..65535).map(|i| [0, LOOKUP, 1, (i % 2) as u8]).collect();
        self.check(&file(&many), rng);
        self.check(&file(&many[..65534]), rng);
        let twelve: Vec<[u8; EVENT]> = many[..2 * MAX_OPERATIONS].to_vec();
        self.must_pass(&file(&twelve), rng);
    }

    /// Prints what was reached; hands back what was not.
    pub fn report(&self) -> Vec<String> {
        let mut missing = Vec::new();
        let mut need = |count: u64, what: String| {
            println!("{what:40} {count:10}");
            if count == 0 {
                missing.push(what);
            }
        };
        for (at, (name, ..)) in OUTCOMES.iter().enumerate() {
            need(self.reached[at], format!("history: {name}"));
        }
        for (at, (first, second)) in PAIRS.iter().enumerate() {
            need(self.pairs[at], format!("history: {first} before {second}"));
        }
        need(self.full, "history: twelve operations".into());
        need(self.own, "history: a run of the bench".into());
        missing
    }
}

impl Default for Histories {
    fn default() -> Self {
        Self::new()
    }
}

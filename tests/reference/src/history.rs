//! History and Judge: a run written as a history, and whether a history has an order that a plain set answers
//! alike. The search is a plain one: every order is tried in turn, number by number, and nothing is remembered.

use crate::bench::{Bench, INSERT, LOOKUP, REMOVE, STATIONS, STEP, THREADS};
use crate::depths::NoDepths;
use crate::file::plain;

/// The most operations that a history may have.
pub const MAX_OPERATIONS: usize = 12;
/// The bytes of a history's header, and of an event.
pub const HISTORY_HEADER: usize = 3;
pub const EVENT: usize = 4;

#[derive(Clone, Copy, Debug, Default, PartialEq, Eq)]
pub struct HistoryReport {
    pub refusal: u64,
    pub length: u64,
}

#[derive(Clone, Copy, Debug, Default, PartialEq, Eq)]
pub struct JudgeReport {
    pub refusal: u64,
    pub accepted: u64,
    pub operations: u64,
    pub order: [u8; MAX_OPERATIONS],
}

/// Writes the run of a schedule as a history: each accepted start and each row, in turn order.
pub fn history(schedule: &[u8], events: &mut [u8]) -> HistoryReport {
    let need = |records: &&[u8]| HISTORY_HEADER + EVENT * (records.len() / 2);
    let room = events.len();
    let records = match plain(schedule).and_then(|r| if room < need(&r) { Err(5) } else { Ok(r) }) {
        Ok(records) => records,
        Err(number) => {
            return HistoryReport {
                refusal: number.into(),
                length: 0,
            }
        }
    };
    let mut bench = Bench::<NoDepths>::new();
    let mut count = 0;
    let mut refusal = 0;
    let mut put = |event: [u8; EVENT]| {
        let at = HISTORY_HEADER + EVENT * count;
        events[at..at + EVENT].copy_from_slice(&event);
        count += 1;
    };
    for record in records.chunks_exact(2) {
        match bench.record(record[0], record[1], 0) {
            Ok(Some([thread, action, station, answer])) => put([thread, action, station, answer + 1]),
            Ok(None) if record[0] & 15 != STEP => put([record[0] >> 4, record[0] & 15, record[1], 0]),
            Ok(None) => {}
            Err(number) => {
                refusal = number.into();
                break;
            }
        }
    }
    events[0] = 1;
    events[1..HISTORY_HEADER].copy_from_slice(&(count as u16).to_be_bytes());
    HistoryReport {
        refusal,
        length: (HISTORY_HEADER + EVENT * count) as u64,
    }
}

/// An operation of a history: its start and finish are the numbers of their events.
#[derive(Clone, Copy, Debug)]
pub struct Operation {
    pub thread: u8,
    pub action: u8,
    pub station: u8,
    pub yes: bool,
    pub start: usize,
    pub finish: usize,
}

/// The operations of a history by their starts, or the number it is refused with. Each kind of refusal is
/// looked for over the whole file before the next kind.
pub fn operations(history: &[u8]) -> Result<Vec<Operation>, u8> {
    let [version, high, low, events @ ..] = history else {
        return Err(1);
    };
    if *version != 1 {
        return Err(2);
    }
    if events.len() != EVENT * usize::from(u16::from_be_bytes([*high, *low])) {
        return Err(4);
    }
    let mut operations: Vec<Operation> = Vec::new();
    let mut open: [Option<usize>; THREADS] = [None; THREADS];
    for (at, event) in events.chunks_exact(EVENT).enumerate() {
        let [thread, action, station, mark] = [event[0], event[1], event[2], event[3]];
        let in_range = usize::from(thread) < THREADS
            && (LOOKUP..=REMOVE).contains(&action)
            && station < STATIONS
            && mark <= 2;
        if !in_range {
            return Err(21);
        }
        match (mark, open[usize::from(thread)]) {
            (0, None) => {
                open[usize::from(thread)] = Some(operations.len());
                operations.push(Operation {
                    thread,
                    action,
                    station,
                    yes: false,
                    start: at,
                    finish: usize::MAX,
                });
            }
            (1 | 2, Some(number)) => {
                let operation = &mut operations[number];
                if (operation.action, operation.station) != (action, station) {
                    return Err(21);
                }
                operation.yes = mark == 2;
                operation.finish = at;
                open[usize::from(thread)] = None;
            }
            _ => return Err(21),
        }
    }
    if operations.len() > MAX_OPERATIONS {
        Err(22)
    } else if open.iter().any(Option::is_some) {
        Err(23)
    } else {
        Ok(operations)
    }
}

/// Whether `order` can be made a whole order: the operations in it are done, and `set` is what they left.
fn complete(operations: &[Operation], order: &mut Vec<u8>, set: u64) -> bool {
    if order.len() == operations.len() {
        return true;
    }
    for (number, operation) in operations.iter().enumerate() {
        let waits = |other: &Operation| other.finish < operation.start;
        let left = |number: usize| !order.contains(&(number as u8));
        if !left(number) || (0..operations.len()).any(|o| left(o) && waits(&operations[o])) {
            continue;
        }
        let bit = 1 << operation.station;
        let inside = set & bit != 0;
        let (yes, after) = match operation.action {
            INSERT => (!inside, set | bit),
            REMOVE => (inside, set & !bit),
            _ => (inside, set),
        };
        if yes != operation.yes {
            continue;
        }
        order.push(number as u8);
        if complete(operations, order, after) {
            return true;
        }
        order.pop();
    }
    false
}

/// Judges a history.
pub fn judge(history: &[u8]) -> JudgeReport {
    let operations = match operations(history) {
        Ok(operations) => operations,
        Err(number) => {
            return JudgeReport {
                refusal: number.into(),
                ..JudgeReport::default()
            }
        }
    };
    let mut order = Vec::new();
    let accepted = complete(&operations, &mut order, 0);
    let mut report = JudgeReport {
        refusal: 0,
        accepted: accepted.into(),
        operations: operations.len() as u64,
        order: [0; MAX_OPERATIONS],
    };
    report.order[..order.len()].copy_from_slice(&order);
    report
}

//! The paper's answers rule, checked of the reference: the plain table of depths against rows and tree at every
//! moment, for all versions (version 1 puts depth 0), and against the set of a range query at one moment of its span;
//! the stored rule: the stored count is the number of stations in
//! the plain table; the count rule (`stops`); and the reasons rule: what splits and joins answer is held to the places and to whether they made
//! their change.

use crate::ranges::Ranges;
use crate::stops::Stops;
use crate::ways::Ways;
use reference::{
    sizes, AnyRows, Bench, Row, INSERT, JOIN, LOOKUP, RANGE, REMOVE, SPLIT, STEP, THREADS,
};

/// What the plain table knows of a thread's open operation.
#[derive(Clone, Default)]
struct Open {
    action: u8,
    station: u8,
    /// An insert's depth, a query's upper end.
    extra: u16,
    stepped: bool,
    /// What the table said of a lookup's station at the moments of its span.
    seen: Vec<Option<u16>>,
    /// The stations in, cut to a query's ends, at the moments of its span.
    sets: Vec<u64>,
    /// A split's swap has succeeded, or the stage of a join's main has become a node number.
    made: bool,
}

/// What a step did besides adding a row.
#[derive(Clone, Copy)]
struct Seen {
    place: u8,
    next: u8,
    used: usize,
}

/// A record: its first two bytes, and what the last two say, 0 in version 1.
#[derive(Clone, Copy)]
pub struct Record {
    pub first: u8,
    pub second: u8,
    pub extra: u16,
}

impl Record {
    pub fn thread(self) -> usize {
        usize::from(self.first >> 4)
    }

    pub fn action(self) -> u8 {
        self.first & 15
    }
}

struct Plain {
    /// The depth of each station that is in.
    table: [Option<u16>; 64],
    open: [Option<Open>; THREADS],
}

impl Plain {
    /// Feeds an accepted record and the row it added.
    fn accept(
        &mut self,
        record: Record,
        row: Option<(Row, u16, u64)>,
        seen: Seen,
        (ways, ranges, stops): (&mut Ways, &mut Ranges, &mut Stops),
    ) -> Result<(), String> {
        let thread = record.thread();
        if record.action() != STEP {
            self.open[thread] = Some(Open {
                action: record.action(),
                station: record.second,
                extra: record.extra,
                ..Open::default()
            });
            return Ok(());
        }
        let open = self.open[thread].as_mut().ok_or("a step of a closed operation")?;
        open.stepped = true;
        open.made |= match open.action {
            SPLIT => seen.used > 0,
            JOIN => (seen.place, seen.next) == (35, 40),
            _ => false,
        };
        let Some(([by, action, station, answer], depth, set)) = row else {
            return Ok(());
        };
        if (usize::from(by), action, station) != (thread, open.action, open.station) {
            return Err(format!("the row {row:?} is not of the open operation"));
        }
        let was = self.table[usize::from(station)];
        match action {
            INSERT => self.table[usize::from(station)] = Some(open.extra),
            REMOVE => self.table[usize::from(station)] = None,
            _ => {}
        }
        self.moment();
        let open = self.open[thread]
            .take()
            .ok_or("the operation closed itself")?;
        let holds = match (action, answer) {
            (INSERT, 0 | 1) => depth == 0 && (answer == 1) != was.is_some(),
            (REMOVE, 0 | 1) => depth == 0 && (answer == 1) == was.is_some(),
            (LOOKUP, 1) => open.seen.contains(&Some(depth)),
            (LOOKUP, 0) => depth == 0 && open.seen.contains(&None),
            (SPLIT | JOIN, 1) => depth == 0 && open.made,
            (SPLIT | JOIN, _) => depth == 0 && !open.made && is_reason(action, answer, seen.place),
            (RANGE, 0 | 1) => depth == 0 && (answer == 1) == (set != 0) && open.sets.contains(&set),
            _ => false,
        } && (action == RANGE || set == 0);
        match (action, answer) {
            (LOOKUP, _) => {
                let now = self.table[usize::from(station)];
                stops.looked(seen.place, (answer == 1).then_some(depth), now);
                if answer == 1 {
                    ways.found(depth, now);
                }
            }
            (INSERT, _) => ways.inserted(was, open.extra),
            (RANGE, _) => ranges.answered(set, &open.sets),
            _ => {}
        }
        holds
            .then_some(())
            .ok_or_else(|| format!("the answer of {row:?} breaks the rule"))
    }

    /// Notes for every lookup and every query under way what is said of its stations now.
    fn moment(&mut self) {
        let table = &self.table;
        for open in self.open.iter_mut().flatten().filter(|open| open.stepped) {
            if open.action == LOOKUP {
                note(&mut open.seen, table[usize::from(open.station)]);
            } else if open.action == RANGE {
                let stations = u16::from(open.station)..=open.extra;
                let inside = stations.filter(|&station| table[usize::from(station)].is_some());
                note(&mut open.sets, inside.fold(0, |set, station| set | 1 << station));
            }
        }
    }

    fn action(&self, thread: usize) -> u8 {
        self.open.get(thread).and_then(Option::as_ref).map_or(STEP, |open| open.action)
    }

    fn depths(&self) -> usize {
        let mut depths: Vec<u16> = self.table.iter().flatten().copied().collect();
        depths.sort_unstable();
        depths.dedup();
        depths.len()
    }
}

fn note<T: PartialEq>(seen: &mut Vec<T>, now: T) {
    if seen.last() != Some(&now) {
        seen.push(now);
    }
}

/// Whether a split or join that did nothing may say this at this place.
fn is_reason(action: u8, answer: u8, place: u8) -> bool {
    match answer {
        2 | 3 => place == 3,
        4 if action == SPLIT => (10..=13).contains(&place),
        4 => place == 21 || place == 25,
        5 => action == JOIN && place == 24,
        6 => action == JOIN && place == 38,
        7 => action == JOIN && place == 19,
        _ => false,
    }
}

/// Checks a schedule's records, whatever its header.
pub fn check(file: &[u8], ways: &mut Ways, ranges: &mut Ranges, stops: &mut Stops) -> Result<(), String> {
    let version = file.first().copied().unwrap_or(1);
    ways.header(file);
    ranges.header(file);
    stops.header(file);
    let mut bench = Bench::<AnyRows>::of(version);
    let mut plain = Plain {
        table: [None; 64],
        open: Default::default(),
    };
    let records = file.get(3..).unwrap_or(&[]).chunks_exact(sizes(version)[0]);
    for (index, bytes) in records.enumerate() {
        let record = Record {
            first: bytes[0],
            second: bytes[1],
            extra: bytes.get(2..4).map_or(0, |last| u16::from_be_bytes([last[0], last[1]])),
        };
        let thread = record.thread().min(THREADS - 1);
        let (place, used, lost) = (bench.place(thread), bench.used(), bench.lost());
        ways.places(&bench);
        ranges.before(&bench, record, plain.action(record.thread()));
        stops.before(&bench, record, plain.action(record.thread()));
        let result = if !matches!(version, 2 | 3) && record.thread() < THREADS && record.action() > JOIN {
            Err(8)
        } else {
            bench.record(record.first, record.second, record.extra)
        };
        match result {
            Ok(row) => {
                let row = row.map(|row| (row, bench.depth(row), bench.found(row)));
                ranges.after(&bench, row.map(|(.., set)| set));
                let counted = stops.after(&bench, row.map(|(row, ..)| row[3]));
                counted.map_err(|why| format!("record {index}: {why}"))?;
                if record.action() == RANGE {
                    ranges.asks(record.second, record.extra);
                }
                let seen = Seen {
                    place,
                    next: bench.place(thread),
                    used: bench.used() - used,
                };
                plain
                    .accept(record, row, seen, (ways, ranges, stops))
                    .map_err(|why| format!("record {index}: {why}"))?;
                plain.moment();
                if seen.used == 3 || (place, seen.next) == (35, 40) {
                    ways.carried(seen.used == 3, plain.depths());
                }
            }
            Err(number) => {
                ways.refused(number, record, place > 0);
                stops.refused(number, &bench);
            }
        }
        if bench.lost() > lost {
            ways.lost(place);
        }
        let (set, depths) = bench.held();
        for (station, &expected) in plain.table.iter().enumerate() {
            let held = (set >> station & 1 == 1).then_some(depths[station]);
            if held != expected {
                return Err(format!(
                    "record {index}: of station {station} the tree says {held:?}, the plain table {expected:?}"
                ));
            }
        }
        if bench.stored() != plain.table.iter().flatten().count() as u64 {
            return Err(format!(
                "record {index}: stored {}, and {} stations are in",
                bench.stored(),
                plain.table.iter().flatten().count()
            ));
        }
        if result.is_err() {
            break;
        }
    }
    stops.end(&bench);
    Ok(())
}

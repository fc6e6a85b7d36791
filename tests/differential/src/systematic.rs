//! Schedules that together are certain to reach every place and refusal of a version: each join stopped at each of its
//! places while another thread works, late helpers and killers, node numbers run out, faulty headers.

use crate::plan::Plan;
use crate::{range_files, stop_files};
use reference::{sizes, INSERT, JOIN, LOOKUP, MAX_RECORDS, RANGE, REMOVE, SPLIT};
use std::ops::RangeInclusive;

/// The stations and splits that a tree is made of.
pub struct Shape {
    stations: &'static [u8],
    splits: &'static [u8],
}

pub const SHAPES: [Shape; 6] = [
    Shape {
        stations: &[3, 9],
        splits: &[],
    },
    Shape {
        stations: &[3, 9],
        splits: &[3],
    },
    Shape {
        stations: &[3, 9, 20, 40],
        splits: &[3, 3],
    },
    Shape {
        stations: &[3, 9, 20, 40],
        splits: &[3, 20],
    },
    Shape {
        stations: &[3, 9, 20, 40],
        splits: &[3, 3, 20],
    },
    Shape {
        stations: &[1, 3, 9, 14, 20, 40, 50, 60],
        splits: &[1, 1, 9, 20, 20],
    },
];

/// Stations in different bases of the larger shapes.
pub const STATIONS: [u8; 4] = [3, 9, 20, 40];
const ACTIONS: [u8; 5] = [LOOKUP, INSERT, REMOVE, SPLIT, JOIN];

const PREPARING: RangeInclusive<u8> = 26..=35;
const COMPLETING: RangeInclusive<u8> = 40..=51;

/// Builds one of the shapes with thread 3.
pub fn grow(plan: &mut Plan, shape: usize) {
    grow_by(plan, 3, shape);
}

/// Builds one of the shapes with a thread.
pub fn grow_by(plan: &mut Plan, thread: u8, shape: usize) {
    let shape = &SHAPES[shape % SHAPES.len()];
    for &station in shape.stations {
        plan.alone(thread, INSERT, station);
    }
    for &station in shape.splits {
        plan.alone(thread, SPLIT, station);
    }
}

/// A tree with a join of thread 0 stopped at `place`, if it gets there.
pub fn stopped_join(version: u8, shape: usize, station: u8, place: u8) -> Option<Plan> {
    let mut plan = Plan::new(version);
    grow(&mut plan, shape);
    plan.start(0, JOIN, station);
    plan.until(0, |at| at == place);
    (plan.place(0) == place).then_some(plan)
}

/// Hands every file of a version to `emit` with a name.
pub fn each(version: u8, emit: &mut impl FnMut(&'static str, Vec<u8>)) {
    for shape in 0..SHAPES.len() {
        for station in STATIONS {
            second_inserts(version, shape, station, emit);
            intruders(version, shape, station, emit);
            late_lookups(version, shape, station, emit);
            left_behind(version, shape, station, emit);
            late_killers(version, shape, station, emit);
            late_helpers(version, shape, station, emit);
            short_of_numbers(version, shape, station, emit);
        }
    }
    for file in faulty_files(version) {
        emit("fault", file);
    }
    if version > 1 {
        range_files::each(version, emit);
    }
    if version == 3 {
        stop_files::each(emit);
    }
}

/// Inserts of a station that is present, at other depths: before, during and after a join, with lookups on the way.
fn second_inserts(version: u8, shape: usize, station: u8, emit: &mut impl FnMut(&'static str, Vec<u8>)) {
    for place in 20..=51 {
        let Some(mut plan) = stopped_join(version, shape, station, place) else {
            continue;
        };
        plan.start(2, LOOKUP, station);
        plan.advance(2);
        plan.alone(1, INSERT, station);
        plan.alone(3, LOOKUP, station);
        plan.alone(1, INSERT, station);
        plan.finish_all();
        for other in STATIONS {
            plan.alone(3, LOOKUP, other);
        }
        emit("second insert", plan.file());
    }
}

/// Another thread's operation while a join stands still.
fn intruders(version: u8, shape: usize, station: u8, emit: &mut impl FnMut(&'static str, Vec<u8>)) {
    for place in 20..=51 {
        for action in ACTIONS {
            for other in STATIONS {
                if let Some(mut plan) = stopped_join(version, shape, station, place) {
                    plan.alone(1, action, other);
                    emit("intruder", plan.file());
                    plan.finish_all();
                    emit("intruder, finished", plan.file());
                }
            }
        }
    }
    for (action, place) in [INSERT, REMOVE, SPLIT]
        .into_iter()
        .flat_map(|a| (3..=13).map(move |p| (a, p)))
    {
        for second in ACTIONS {
            let mut plan = Plan::new(version);
            grow(&mut plan, shape);
            plan.start(0, action, station);
            plan.until(0, |at| at == place);
            plan.alone(1, second, station);
            plan.finish_all();
            emit("update or split overtaken", plan.file());
        }
    }
}

/// A lookup stands still while the base it comes to is joined away and its station changes.
fn late_lookups(version: u8, shape: usize, station: u8, emit: &mut impl FnMut(&'static str, Vec<u8>)) {
    for steps in 1..=3 {
        for action in [INSERT, REMOVE] {
            for joined in STATIONS {
                let mut plan = Plan::new(version);
                grow(&mut plan, shape);
                if action == INSERT {
                    plan.alone(3, REMOVE, station);
                }
                plan.start(1, LOOKUP, station);
                for _ in 0..steps {
                    plan.advance(1);
                }
                plan.alone(0, JOIN, joined);
                plan.alone(0, action, station);
                plan.finish(1);
                emit("late lookup", plan.file());
            }
        }
    }
}

/// An operation stands in the search while the base it comes to is joined away: it finds a main whose join is done.
fn left_behind(version: u8, shape: usize, station: u8, emit: &mut impl FnMut(&'static str, Vec<u8>)) {
    for steps in 1..=3 {
        for action in [INSERT, REMOVE, SPLIT, JOIN] {
            let mut plan = Plan::new(version);
            grow(&mut plan, shape);
            plan.start(1, action, station);
            for _ in 0..steps {
                plan.advance(1);
            }
            plan.alone(0, JOIN, station);
            plan.finish(1);
            emit("left behind", plan.file());
        }
    }
}

/// An update stands at 16 while the join it would kill goes on.
fn late_killers(version: u8, shape: usize, station: u8, emit: &mut impl FnMut(&'static str, Vec<u8>)) {
    for place in PREPARING {
        for next in place..=51 {
            if let Some(mut plan) = stopped_join(version, shape, station, place) {
                plan.start(1, INSERT, station);
                plan.until(1, |at| at == 16);
                plan.until(0, |at| at == next);
                plan.alone(2, LOOKUP, station);
                plan.step(1);
                plan.finish_all();
                emit("late killer", plan.file());
                for third in STATIONS {
                    plan.alone(3, JOIN, third);
                }
                emit("late killer, joins after it", plan.file());
            }
        }
    }
}

/// A helper stands still while the join ends and others join around the same routes.
fn late_helpers(version: u8, shape: usize, station: u8, emit: &mut impl FnMut(&'static str, Vec<u8>)) {
    for place in COMPLETING {
        for second in STATIONS {
            for stop in [26, 30, 31, 34, 40, 46] {
                let Some(mut plan) = stopped_join(version, shape, station, 40) else {
                    continue;
                };
                plan.start(1, INSERT, station);
                plan.until(1, |at| at == place);
                plan.finish(0);
                plan.alone(0, SPLIT, second);
                plan.start(2, JOIN, second);
                plan.until(2, |at| at == stop);
                plan.finish(1);
                for third in STATIONS {
                    plan.alone(3, JOIN, third);
                }
                emit("late helper", plan.file());
                plan.finish_all();
                emit("late helper, finished", plan.file());
            }
        }
    }
}

/// Few or no node numbers left when an operation comes to its swaps.
fn short_of_numbers(version: u8, shape: usize, station: u8, emit: &mut impl FnMut(&'static str, Vec<u8>)) {
    for left in 0..=4 {
        for action in [INSERT, SPLIT, JOIN] {
            let mut plan = Plan::new(version);
            grow(&mut plan, shape);
            while plan.left() > left && !plan.is_over() {
                plan.alone(3, INSERT, 3);
            }
            plan.alone(0, action, station);
            plan.alone(0, LOOKUP, station);
            emit("short of numbers", plan.file());
        }
    }
}

/// Headers with one fault or several, and records with each fault, and with two, after a good start.
pub fn faulty_files(version: u8) -> Vec<Vec<u8>> {
    let mut files: Vec<Vec<u8>> = Vec::new();
    let width = sizes(version)[0];
    for length in 0..12 {
        for other in [0, version, 4, 255] {
            for count in [0u16, 1, 2, 4096, 4097, 65535] {
                let [high, low] = count.to_be_bytes();
                files.push([other, high, low, 2, 9, 0, 0, 0, 0, 0, 0][..length.min(11)].to_vec());
            }
        }
    }
    for count in [MAX_RECORDS, MAX_RECORDS + 1, 65535] {
        let [high, low] = (count as u16).to_be_bytes();
        let mut file = vec![version, high, low];
        let pair = [&[0x01, 63, 0, 0][..width], &[0, 0, 0, 0][..width]].concat();
        file.extend(pair.iter().cycle().take(width * count));
        files.push(file);
    }
    for (busy, first, second, extra) in faults() {
        let mut plan = Plan::new(version);
        grow(&mut plan, 1);
        if busy {
            plan.start(first / 16 % 4, INSERT, 5);
        }
        plan.record(first, second, extra);
        plan.start(2, INSERT, 7);
        files.push(plan.file());
    }
    files
}

/// Records with a fault or several, and those just inside the bounds: whether the thread is busy, and the record.
fn faults() -> Vec<(bool, u8, u8, u16)> {
    let mut all = Vec::new();
    for first in [0x00, 0x01, 0x02, 0x03, 0x04, 0x05, 0x06, 0x07, 0x0F, 0x30, 0x32, 0x35, 0x36, 0x37, 0x3F] {
        for second in [0, 1, 5, 63, 64, 255] {
            for extra in [0, 1, 256, 9999, 10000, 65535] {
                all.extend([false, true].map(|busy| (busy, first, second, extra)));
            }
            let upper_ends = [4, 5, 62, 63, 64, 256 + 63].into_iter().filter(|_| first & 15 == RANGE);
            for upper in upper_ends {
                all.extend([false, true].map(|busy| (busy, first, second, upper)));
            }
        }
    }
    for first in [0x40, 0x42, 0x46, 0x4F, 0xF2, 0xFF] {
        for (second, extra) in [(0, 0), (0, 1), (0, 10000), (64, 0), (255, 65535)] {
            all.push((false, first, second, extra));
        }
    }
    all
}

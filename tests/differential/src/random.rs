//! Random schedules: short and long, uniform, in bursts and with stalled threads, wild bytes, bad headers.

use crate::plan::Plan;
use crate::rng::Rng;
use crate::{stop_files, systematic};
use reference::{sizes, INSERT, LOOKUP, MAX_OPERATIONS, MAX_RECORDS, RANGE, SPLIT, THREADS};

/// The longest file that is made: the most records that a header can state, and a few bytes.
pub const LONGEST_FILE: usize = 3 + 4 * 65535 + 8;

/// How often each action from lookup to range query is started; the last three are for version 2 and 3.
const MIXES: [[usize; 6]; 8] = [
    [1, 1, 1, 1, 1, 0],
    [1, 6, 2, 6, 8, 0],
    [1, 2, 1, 8, 14, 0],
    [4, 8, 8, 1, 1, 0],
    [96, 1, 1, 1, 1, 0],
    [1, 3, 2, 4, 4, 6],
    [0, 2, 2, 6, 12, 8],
    [2, 3, 3, 1, 1, 2],
];
/// Those without queries.
const OLD_MIXES: usize = 5;

/// Who has the next turn.
#[derive(Clone, Copy)]
enum Order {
    Uniform,
    Burst,
    Stalls,
}

/// A random file with the name of its kind; each version comes as often.
pub fn file(rng: &mut Rng) -> (&'static str, Vec<u8>) {
    let version = rng.pick(&[1, 2, 3]);
    match rng.weighted(&[80, 6, 6, 6, 2]) {
        0 => ("mixed", mixed(rng, version, usize::MAX)),
        1 => ("wild", wild(rng, version)),
        2 => ("bad header", bad_header(rng, version)),
        3 => ("short of numbers", short_of_numbers(rng, version)),
        _ => ("deep", deep(rng, version)),
    }
}

/// An unrefused file of exactly `count` records, for the benchmark; with one writer if asked.
pub fn steady(rng: &mut Rng, version: u8, count: usize, one_writer: bool) -> Vec<u8> {
    let mut plan = Plan::new(version);
    let style = Style {
        order: Order::Burst,
        threads: 4,
        mix: MIXES[0],
        stations: !0,
        spare: 16,
        spare_stores: THREADS,
        one_writer,
    };
    turns(&mut plan, rng, &style, count);
    plan.file()
}

/// The same of version 2 with queries while stores last, a third of the operations.
pub fn steady_ranges(rng: &mut Rng, count: usize) -> Vec<u8> {
    let mut plan = Plan::new(2);
    let style = Style {
        order: Order::Burst,
        threads: 4,
        mix: [2, 2, 2, 2, 2, 5],
        stations: !0,
        spare: 16,
        spare_stores: THREADS,
        one_writer: false,
    };
    turns(&mut plan, rng, &style, count);
    plan.file()
}

/// A file whose history must pass: only lookups, inserts and removes, at most twelve of them, all finished.
pub fn short(rng: &mut Rng) -> Vec<u8> {
    let mut plan = Plan::new(1);
    let mut left = rng.below(MAX_OPERATIONS + 1);
    let stations = 1 + rng.below(4);
    while left > 0 {
        let thread = rng.below(4) as u8;
        if plan.is_idle(thread) {
            plan.start(thread, LOOKUP + rng.below(3) as u8, rng.below(stations) as u8);
            left -= 1;
        } else {
            plan.advance(thread);
        }
    }
    while (0..4).any(|thread| !plan.is_idle(thread)) {
        plan.advance(rng.below(4) as u8);
    }
    plan.file()
}

fn length(rng: &mut Rng) -> usize {
    match rng.weighted(&[66, 24, 10]) {
        0 => rng.below(65),
        1 => rng.below(600),
        _ if rng.once_in(2) => MAX_RECORDS,
        _ => rng.below(MAX_RECORDS + 1),
    }
}

struct Style {
    order: Order,
    threads: usize,
    mix: [usize; 6],
    /// A mask of the stations to work on.
    stations: u64,
    /// Only lookups are started once fewer node numbers are left.
    spare: usize,
    /// No queries are started once fewer stores are left.
    spare_stores: usize,
    /// Only thread 0 starts anything but lookups, and none queries.
    one_writer: bool,
}

impl Style {
    fn random(rng: &mut Rng, version: u8) -> Self {
        let stations = match rng.below(4) {
            0 => !0,
            1 => 0b111 << rng.below(62),
            2 => rng.word() & rng.word() & rng.word() | 1 << rng.below(64),
            _ => 1 << 3 | 1 << 9 | 1 << 20 | 1 << 40,
        };
        Style {
            order: rng.pick(&[Order::Uniform, Order::Burst, Order::Stalls, Order::Stalls]),
            threads: rng.pick(&[1, 2, 3, 4, 4, 4]),
            mix: rng.pick(if version > 1 { &MIXES } else { &MIXES[..OLD_MIXES] }),
            stations,
            spare: rng.pick(&[0, 16, 16, 100, 200]),
            spare_stores: rng.pick(&[0, 4, 4, 30]),
            one_writer: false,
        }
    }

    fn start(&self, plan: &mut Plan, rng: &mut Rng, thread: u8) {
        let mut action = if plan.left() < self.spare || self.one_writer && thread > 0 {
            LOOKUP
        } else {
            1 + rng.weighted(&self.mix) as u8
        };
        if action == RANGE && (self.one_writer || plan.stores_left() < self.spare_stores) {
            action = LOOKUP;
        }
        let station = self.station(rng);
        if action == RANGE {
            let upper = match rng.below(8) {
                0 => 63,
                1 => station,
                2 => station + rng.below(64 - usize::from(station)) as u8,
                _ => self.station(rng),
            };
            return plan.ask(thread, station.min(upper), station.max(upper));
        }
        plan.start(thread, action, station);
    }

    fn station(&self, rng: &mut Rng) -> u8 {
        let skipped = rng.below(self.stations.count_ones() as usize);
        let rest = (0..skipped).fold(self.stations, |rest, _| rest & (rest - 1));
        rest.trailing_zeros() as u8
    }
}

/// Adds turns up to `count` records.
fn turns(plan: &mut Plan, rng: &mut Rng, style: &Style, count: usize) {
    let mut thread = 0;
    let mut burst = 0;
    let mut stalled = [0usize; 4];
    while plan.count() < count && !plan.is_over() {
        match style.order {
            Order::Burst if burst > 0 => burst -= 1,
            Order::Burst => {
                thread = rng.below(style.threads);
                burst = rng.below(40);
            }
            Order::Uniform => thread = rng.below(style.threads),
            Order::Stalls => {
                let awake: Vec<usize> = (0..style.threads).filter(|&t| stalled[t] == 0).collect();
                thread = if awake.is_empty() {
                    rng.below(style.threads)
                } else {
                    rng.pick(&awake)
                };
                stalled
                    .iter_mut()
                    .for_each(|turns| *turns = turns.saturating_sub(1));
                if plan.place(thread as u8) >= 10 && rng.once_in(8) {
                    stalled[thread] = rng.below(100);
                    continue;
                }
            }
        }
        if plan.is_idle(thread as u8) {
            style.start(plan, rng, thread as u8);
        } else {
            plan.step(thread as u8);
        }
    }
}

/// Valid turns, then perhaps a fault and more.
fn mixed(rng: &mut Rng, version: u8, most: usize) -> Vec<u8> {
    let mut plan = Plan::new(version);
    match rng.below(4) {
        // a bad header needs no long file
        0 if version == 3 && most > MAX_RECORDS => stop_files::chain(&mut plan, rng.pick(&[7, 8, 9, 12])),
        0 | 1 => systematic::grow(&mut plan, rng.below(16)),
        _ => {}
    }
    let count = (plan.count() + length(rng)).min(most);
    let style = Style::random(rng, version);
    turns(&mut plan, rng, &style, count);
    if rng.once_in(8) {
        let (first, second, extra) = fault(rng);
        plan.record(first, second, extra);
    }
    for _ in 0..rng.pick(&[0, 0, 0, 3]) {
        plan.record(rng.byte(), rng.byte(), rng.word() as u16);
    }
    plan.file()
}

/// A record that is likely to be refused.
fn fault(rng: &mut Rng) -> (u8, u8, u16) {
    let thread = 16 * rng.below(4) as u8;
    let extra = rng.pick(&[0, 0, 0, 1, 63, 64, 256, 9999, 10000, 65535]);
    match rng.below(6) {
        0 => (64 + rng.byte() % 192, rng.byte(), extra),
        1 => (thread + 6 + rng.below(10) as u8, rng.byte(), extra),
        2 => (thread + 1 + rng.below(6) as u8, 64 + rng.byte() % 192, extra),
        3 => (thread, rng.byte(), extra),
        4 => (thread + rng.below(7) as u8, rng.pick(&[0, 0, 0, 64]), extra),
        _ => (thread + rng.below(7) as u8, 0, 0),
    }
}

/// A good header over records that are good only now and then.
fn wild(rng: &mut Rng, version: u8) -> Vec<u8> {
    let mut plan = Plan::new(version);
    for _ in 0..rng.below(120) {
        let thread = rng.below(4) as u8;
        if rng.once_in(12) {
            plan.record(rng.byte(), rng.byte(), rng.word() as u16);
        } else if plan.is_idle(thread) && version > 1 && rng.once_in(5) {
            plan.ask(thread, rng.byte() % 34, 30 + rng.byte() % 36);
        } else if plan.is_idle(thread) {
            plan.start(thread, 1 + rng.below(5) as u8, rng.byte() % 66);
        } else {
            plan.step(thread);
        }
    }
    plan.file()
}

/// A file with one header fault or several.
fn bad_header(rng: &mut Rng, version: u8) -> Vec<u8> {
    let mut file = mixed(rng, version, 40);
    for _ in 0..1 + rng.below(2) {
        match rng.below(7) {
            0 => file.truncate(rng.below(4)),
            1 if !file.is_empty() => file[0] = rng.pick(&[0, 1, 2, 3, 4, 255]),
            2 if file.len() > 2 => file[1] = rng.byte(),
            3 if file.len() > 2 => {
                file[2] = file[2].wrapping_add(1).wrapping_sub(2 * (rng.byte() & 1))
            }
            4 => file.extend((0..1 + rng.below(3)).map(|i| i as u8)),
            5 => file.truncate(file.len().saturating_sub(1 + rng.below(3))),
            _ => {
                let count = MAX_RECORDS + rng.below(3);
                file.resize(3, 1);
                file[1..].copy_from_slice(&(count as u16).to_be_bytes());
                file.resize(3 + sizes(file[0])[0] * count, 0);
            }
        }
    }
    file
}

/// Turns on with no more than a few node numbers left.
fn short_of_numbers(rng: &mut Rng, version: u8) -> Vec<u8> {
    let mut plan = Plan::new(version);
    systematic::grow(&mut plan, rng.below(16));
    let left = rng.below(8);
    while plan.left() > left && !plan.is_over() {
        plan.alone(3, INSERT, rng.pick(&[3, 9, 20, 40]));
    }
    let mixes = [MIXES[0], MIXES[1], MIXES[2], MIXES[5]];
    let style = Style {
        mix: rng.pick(if version > 1 { &mixes } else { &mixes[..3] }),
        spare: 0,
        ..Style::random(rng, version)
    };
    let count = plan.count() + rng.below(400);
    turns(&mut plan, rng, &style, count);
    plan.file()
}

/// A file in which thread 0 alone writes, while others look up.
pub fn one_writer(rng: &mut Rng) -> Vec<u8> {
    let version = rng.pick(&[1, 2]);
    let mut plan = Plan::new(version);
    match rng.weighted(&[30, 60, 9, 1]) {
        0 => {}
        1 => systematic::grow_by(&mut plan, 0, rng.below(16)),
        2 => {
            let left = rng.below(8);
            while plan.left() > left && !plan.is_over() {
                plan.alone(0, INSERT, rng.pick(&[3, 9, 20, 40]));
            }
        }
        _ => {
            let levels = rng.pick(&[10, 40, 64]);
            for station in 0..levels {
                plan.alone(0, INSERT, station);
                plan.alone(0, SPLIT, station);
            }
        }
    }
    let style = Style {
        one_writer: true,
        ..Style::random(rng, version)
    };
    let count = plan.count() + length(rng);
    turns(&mut plan, rng, &style, count);
    plan.file()
}

/// A chain of routes as deep as the records allow, to one side or the other.
fn deep(rng: &mut Rng, version: u8) -> Vec<u8> {
    let mut plan = Plan::new(version);
    let down = rng.once_in(2);
    let levels = rng.pick(&[10, 40, 64]);
    for level in 0..levels {
        let station = if down { 63 - level } else { level };
        plan.alone(level % 4, INSERT, station);
        plan.alone(level % 4, SPLIT, station);
    }
    let style = Style {
        spare: 3,
        ..Style::random(rng, version)
    };
    let count = plan.count() + rng.below(200);
    turns(&mut plan, rng, &style, count);
    plan.file()
}

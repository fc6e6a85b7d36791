//! Schedules of version 2 or 3 that together are certain to reach what `ranges` lists: queries alone, stopped at each of their
//! places while another thread works, over joins in every stage, riding, helping up to three deep, short of node numbers
//! and of stores; and files about as long as those whose records are looked at for a query before the run.

use crate::plan::Plan;
use crate::ranges::SHORT;
use crate::systematic::{grow, stopped_join, SHAPES, STATIONS};
use reference::{INSERT, JOIN, LOOKUP, RANGE_PLACES, REMOVE, SPLIT};

/// Ends of queries: stations of the shapes, and the first and last of all.
const ENDS: [u8; 6] = [0, 3, 9, 20, 40, 63];
/// Queries over all bases, over some, and over one.
const ASKED: [(u8, u8); 4] = [(0, 63), (3, 9), (9, 40), (20, 20)];
/// Shapes of one base, of two and of more.
const FORMS: [usize; 5] = [0, 1, 2, 4, 5];

/// Hands every file to `emit` with a name.
pub fn each(version: u8, emit: &mut impl FnMut(&'static str, Vec<u8>)) {
    for shape in 0..SHAPES.len() {
        alone(version, shape, emit);
        moments(version, shape, emit);
        for station in STATIONS {
            over_joins(version, shape, station, emit);
        }
    }
    for shape in FORMS {
        for asked in ASKED {
            overtaken(version, shape, asked, emit);
            riders(version, shape, asked, emit);
        }
        short_of_numbers(version, shape, emit);
        short_of_stores(version, shape, emit);
    }
    deep(version, emit);
    about_short(version, emit);
}

/// A tree with a query of thread 0 stopped at `place` when it comes there the `visit`th time, if it does.
fn stopped_query(version: u8, shape: usize, asked: (u8, u8), place: u8, visit: usize) -> Option<Plan> {
    let mut plan = Plan::new(version);
    grow(&mut plan, shape);
    plan.ask(0, asked.0, asked.1);
    for _ in 1..visit {
        plan.until(0, |at| at == place);
        plan.advance(0);
    }
    plan.until(0, |at| at == place);
    (plan.place(0) == place).then_some(plan)
}

/// Queries one after another, with every pair of ends; the second meets range bases.
fn alone(version: u8, shape: usize, emit: &mut impl FnMut(&'static str, Vec<u8>)) {
    for lower in ENDS {
        for upper in ENDS.into_iter().filter(|&upper| lower <= upper) {
            let mut plan = Plan::new(version);
            grow(&mut plan, shape);
            plan.alone(3, INSERT, upper);
            plan.query(1, lower, upper);
            plan.query(2, lower, upper);
            plan.alone(1, INSERT, 5);
            plan.alone(1, LOOKUP, 9);
            plan.query(0, 0, 63);
            emit("queries alone", plan.file());
        }
    }
}

/// Stations come and go after a query's first step, before its store is filled, and after.
fn moments(version: u8, shape: usize, emit: &mut impl FnMut(&'static str, Vec<u8>)) {
    for (lower, upper) in ASKED {
        for inside in [lower, upper] {
            let mut plan = Plan::new(version);
            grow(&mut plan, shape);
            plan.ask(0, lower, upper);
            plan.advance(0);
            plan.alone(1, INSERT, inside);
            plan.until(0, |at| at == 81);
            plan.alone(2, LOOKUP, inside);
            plan.advance(0);
            plan.alone(1, REMOVE, inside);
            plan.alone(1, INSERT, (lower + upper) / 2);
            plan.finish(0);
            emit("moments of a query", plan.file());
        }
    }
}

/// Another thread's operation while a query stands still.
fn overtaken(version: u8, shape: usize, asked: (u8, u8), emit: &mut impl FnMut(&'static str, Vec<u8>)) {
    let visits = RANGE_PLACES.into_iter().flat_map(|place| [(place, 1), (place, 2)]);
    for stopped in visits.filter_map(|(place, visit)| stopped_query(version, shape, asked, place, visit)) {
        for action in [INSERT, REMOVE, SPLIT, JOIN] {
            for station in STATIONS {
                let mut plan = stopped.clone();
                plan.alone(1, action, station);
                emit("query overtaken", plan.file());
                plan.finish_all();
                plan.query(3, 0, 63);
                emit("query overtaken, finished", plan.file());
            }
        }
        for (lower, upper) in ASKED {
            let mut plan = stopped.clone();
            plan.query(1, lower, upper);
            plan.alone(2, REMOVE, 9);
            plan.alone(2, LOOKUP, 9);
            plan.finish_all();
            emit("query overtaken by a query", plan.file());
        }
    }
}

/// A query over a join that stands still at each of its places; then the query stands still in what it does about the
/// join, while the join goes on or is killed.
fn over_joins(version: u8, shape: usize, station: u8, emit: &mut impl FnMut(&'static str, Vec<u8>)) {
    for joined in (20..=51).filter_map(|place| stopped_join(version, shape, station, place)) {
        for (lower, upper) in [(0, 63), (station, station)] {
            let mut plan = joined.clone();
            plan.query(1, lower, upper);
            emit("query over a join", plan.file());
            plan.finish_all();
            plan.alone(3, JOIN, station);
            emit("query over a join, finished", plan.file());
            for stop in [15, 16, 40, 45, 51] {
                let mut plan = joined.clone();
                plan.ask(1, lower, upper);
                plan.until(1, |at| at == stop);
                if plan.place(1) != stop {
                    continue;
                }
                let mut killed = plan.clone();
                plan.finish(0);
                plan.finish(1);
                emit("join ends before the query's help", plan.file());
                killed.alone(2, INSERT, station);
                killed.alone(3, REMOVE, 20);
                killed.finish(1);
                killed.finish(0);
                emit("join killed or helped before the query's help", killed.file());
            }
        }
    }
}

/// Queries that ride on a store, or help it because they ask for more; the store is filled while they stand still.
fn riders(version: u8, shape: usize, (lower, upper): (u8, u8), emit: &mut impl FnMut(&'static str, Vec<u8>)) {
    let shown = [70, 71, 73, 74, 76, 78, 81, 82];
    for stopped in shown.into_iter().filter_map(|place| stopped_query(version, shape, (lower, upper), place, 1)) {
        for (from, to) in [(0, upper), (lower, upper), (lower, 63), (upper, upper)] {
            for place in [60, 61, 62, 15, 70, 74, 76, 81, 82] {
                let mut plan = stopped.clone();
                plan.ask(1, from, to);
                plan.advance(1);
                plan.until(1, |at| at == place);
                if plan.is_idle(1) {
                    continue;
                }
                let mut helped = plan.clone();
                plan.finish(0);
                plan.alone(0, REMOVE, 3);
                plan.finish(1);
                emit("rider, and the query ends", plan.file());
                helped.alone(2, INSERT, lower);
                helped.alone(2, REMOVE, 9);
                helped.finish(1);
                helped.finish(0);
                emit("rider, and an update helps", helped.file());
            }
        }
    }
}

/// Few or no node numbers left when a query comes to its swaps.
fn short_of_numbers(version: u8, shape: usize, emit: &mut impl FnMut(&'static str, Vec<u8>)) {
    for left in 0..=5 {
        for (lower, upper) in ASKED {
            let mut plan = Plan::new(version);
            grow(&mut plan, shape);
            while plan.left() > left && !plan.is_over() {
                plan.alone(3, INSERT, 3);
            }
            plan.query(0, lower, upper);
            plan.alone(0, LOOKUP, 9);
            emit("query short of numbers", plan.file());
        }
    }
}

/// The last stores go; then a query that needs one, at the root or on either side, with and without a node number left.
fn short_of_stores(version: u8, shape: usize, emit: &mut impl FnMut(&'static str, Vec<u8>)) {
    for station in [3, 40] {
        for numbers in [0, 1, 9] {
            let mut plan = Plan::new(version);
            grow(&mut plan, shape);
            while plan.stores_left() > 1 && !plan.is_over() {
                plan.query(0, station, station);
            }
            while plan.left() > numbers + 1 && !plan.is_over() {
                plan.alone(3, INSERT, 3);
            }
            // the last store is shown; one that rides on it and one that helps need none
            plan.ask(0, station, 63);
            plan.until(0, |at| at >= 70);
            emit("last store", plan.file());
            plan.query(1, station, 63);
            plan.alone(2, REMOVE, station);
            emit("ride and help without a store", plan.file());
            plan.finish(0);
            plan.query(3, station, station);
            plan.alone(1, LOOKUP, 9);
            emit("short of stores", plan.file());
        }
    }
}

/// Up to three queries that hold a base each, of four side by side; the fourth thread comes to the first of them and helps
/// all. While it stands in its last frame, the others finish, in either order, or not.
fn deep(version: u8, emit: &mut impl FnMut(&'static str, Vec<u8>)) {
    let stations = [10, 20, 30, 40, 50];
    for holders in 1..=3u8 {
        for held in [70, 71, 74, 81, 82] {
            let mut base = Plan::new(version);
            for station in stations {
                base.alone(0, INSERT, station);
            }
            for split in [10, 10, 30, 40] {
                base.alone(0, SPLIT, split);
            }
            for holder in 1..=holders {
                base.ask(holder, stations[usize::from(holder)], 63);
                base.until(holder, |at| at == held || at == 70);
            }
            for (action, station) in [(INSERT, 20), (REMOVE, 21), (0, 10), (0, 20)] {
                for stop in [60, 61, 70, 74, 76, 81, 82] {
                    let mut plan = base.clone();
                    if action == 0 {
                        plan.ask(0, station, 63);
                    } else {
                        plan.start(0, action, station);
                    }
                    let most = usize::from(holders + u8::from(action == 0));
                    while !plan.is_idle(0) && !plan.is_over() && (plan.frames(0) < most || plan.place(0) != stop) {
                        plan.step(0);
                    }
                    let mut risen = plan.clone();
                    let mut fallen = plan.clone();
                    plan.finish(0);
                    plan.finish_all();
                    emit("deep help", plan.file());
                    (1..=holders).for_each(|holder| risen.finish(holder));
                    risen.query(1, 50, 50);
                    risen.finish(0);
                    emit("deep help, others finish from below", risen.file());
                    (1..=holders).rev().for_each(|holder| fallen.finish(holder));
                    fallen.ask(1, 50, 63);
                    fallen.until(1, |at| at >= 70);
                    fallen.finish(0);
                    fallen.finish_all();
                    emit("deep help, others finish from above", fallen.file());
                }
            }
        }
    }
}

/// Files as long as the longest that is short, and a little shorter and longer: none of their records asks, or one of them,
/// the first, the last or one between.
fn about_short(version: u8, emit: &mut impl FnMut(&'static str, Vec<u8>)) {
    let work = |plan: &mut Plan, count: usize| {
        let mut turn = 0;
        while plan.count() < count {
            let (thread, station) = (turn % 3, STATIONS[usize::from(turn) % 4]);
            match plan.is_idle(thread) {
                true => plan.start(thread, [INSERT, SPLIT, LOOKUP, JOIN, REMOVE][usize::from(turn) % 5], station),
                false => plan.step(thread),
            }
            turn = (turn + 1) % 60;
        }
    };
    for count in [1, 2, 3, SHORT - 1, SHORT, SHORT + 1, 2 * SHORT] {
        let mut plan = Plan::new(version);
        work(&mut plan, count);
        emit("no query", plan.file());
        for asks in [0, 1, count / 2, SHORT - 1, SHORT, count - 1].into_iter().filter(|&asks| asks < count) {
            let mut plan = Plan::new(version);
            work(&mut plan, asks);
            plan.ask(3, 3, 40);
            while !plan.is_idle(3) && plan.count() < count {
                plan.step(3);
            }
            work(&mut plan, count);
            emit("one query", plan.file());
        }
    }
}

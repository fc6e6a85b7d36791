//! Schedules of version 3 that together are certain to reach what `stops` lists: chains of routes, searches that stand still
//! between their 4 and their 5, up to four at once, joins and other operations meanwhile, and searches that begin again.

use crate::plan::Plan;
use reference::{INSERT, JOIN, LOOKUP, REMOVE, SPLIT};

const ACTIONS: [u8; 5] = [LOOKUP, INSERT, REMOVE, SPLIT, JOIN];
/// Routes above the last base: the 7th, the 8th, more.
const DEPTHS: [u8; 4] = [7, 8, 9, 12];

/// Hands every file to `emit` with a name.
pub fn each(emit: &mut impl FnMut(&'static str, Vec<u8>)) {
    for routes in [1, 6, 7, 8, 9, 10, 20, 40] {
        alone(routes, emit);
    }
    for routes in DEPTHS {
        for action in ACTIONS {
            meanwhile(routes, action, emit);
            moments(routes, action, emit);
        }
        for joined in [3, routes - 1, routes] {
            four(routes, joined, emit);
            past(routes, joined, emit);
        }
        blocked(routes, emit);
        short_of_numbers(routes, emit);
    }
    grown_and_cut(emit);
}

/// A chain of routes with keys 1, 2, .., by thread 3: the base of the last station is the right child of the last route.
pub fn chain(plan: &mut Plan, routes: u8) {
    plan.alone(3, INSERT, 0);
    for station in 1..=routes {
        plan.alone(3, INSERT, station);
        plan.alone(3, SPLIT, station);
    }
}

fn chained(routes: u8) -> Plan {
    let mut plan = Plan::new(3);
    chain(&mut plan, routes);
    plan
}

/// Every action alone at the last base and at the one beside it, and a query.
fn alone(routes: u8, emit: &mut impl FnMut(&'static str, Vec<u8>)) {
    for action in ACTIONS {
        for station in [routes, routes - 1, 63] {
            let mut plan = chained(routes);
            plan.alone(1, action, station);
            plan.query(2, station, 63);
            plan.alone(1, LOOKUP, station);
            plan.alone(0, JOIN, 1);
            emit("counted alone", plan.file());
        }
    }
}

/// A search stands still at each of its places; meanwhile another operation, a query and a join.
fn meanwhile(routes: u8, action: u8, emit: &mut impl FnMut(&'static str, Vec<u8>)) {
    for place in [2, 4, 5, 3, 10, 12, 13, 19, 20] {
        for visit in [1, 7, 8, 9] {
            let mut stopped = chained(routes);
            stopped.start(0, action, routes);
            for _ in 1..visit {
                stopped.until(0, |at| at == place);
                stopped.advance(0);
            }
            stopped.until(0, |at| at == place);
            if stopped.place(0) != place {
                continue;
            }
            for other in ACTIONS {
                for station in [3, routes] {
                    let mut plan = stopped.clone();
                    plan.alone(1, other, station);
                    emit("while a search stands still", plan.file());
                    plan.query(2, station, 63);
                    plan.finish(0);
                    plan.alone(1, JOIN, station);
                    plan.finish_all();
                    emit("while a search stands still, finished", plan.file());
                }
            }
        }
    }
}

/// The last base changes, is split or joined away while a search stands between its two steps, or before the first.
fn moments(routes: u8, action: u8, emit: &mut impl FnMut(&'static str, Vec<u8>)) {
    for stop in [2, 4, 5, 3] {
        for before in [INSERT, REMOVE] {
            for other in [INSERT, REMOVE, SPLIT] {
                let mut plan = chained(routes);
                plan.alone(1, before, routes);
                plan.start(0, action, routes);
                plan.advance(0);
                plan.until(0, |at| at == stop);
                plan.alone(1, other, routes);
                plan.alone(1, INSERT, routes + 1);
                plan.alone(1, SPLIT, routes);
                plan.finish(0);
                plan.alone(2, JOIN, routes);
                emit("moments of a counted search", plan.file());
            }
        }
    }
}

/// Searches are counted one after another, up to four; a join comes in between; then they go on in either order.
fn four(routes: u8, joined: u8, emit: &mut impl FnMut(&'static str, Vec<u8>)) {
    for first in ACTIONS {
        for second in ACTIONS {
            let mut plan = chained(routes);
            for (thread, action) in [(0, first), (1, second), (2, LOOKUP)] {
                plan.start(thread, action, routes);
                plan.until(thread, |at| at == 4);
                plan.advance(thread);
                plan.alone(3, JOIN, joined);
            }
            emit("three are counted", plan.file());
            plan.start(3, INSERT, routes);
            plan.until(3, |at| at == 4);
            plan.advance(3);
            emit("four are counted", plan.file());
            let mut fallen = plan.clone();
            plan.finish_all();
            plan.alone(1, JOIN, joined);
            emit("four are counted, finished", plan.file());
            for thread in [3, 1, 2, 0] {
                fallen.until(thread, |at| at == 5);
                fallen.advance(thread);
                fallen.alone(2, JOIN, joined);
            }
            fallen.finish_all();
            emit("four are counted, finished in turns", fallen.file());
        }
    }
}

/// A join stands still at each of its places while a search is counted; then either goes on first.
fn past(routes: u8, joined: u8, emit: &mut impl FnMut(&'static str, Vec<u8>)) {
    for place in 19..=51 {
        for action in [LOOKUP, INSERT] {
            let mut plan = chained(routes);
            plan.start(1, JOIN, joined);
            plan.until(1, |at| at == place);
            if plan.place(1) != place {
                continue;
            }
            plan.start(0, action, routes);
            plan.until(0, |at| at == 4);
            let mut before = plan.clone();
            before.finish(1);
            before.finish(0);
            emit("a join goes on before a search is counted", before.file());
            plan.advance(0);
            plan.alone(2, INSERT, joined);
            plan.finish(1);
            emit("a join goes on while a search is counted", plan.file());
            plan.finish_all();
            emit("a join goes on while a search is counted, finished", plan.file());
        }
    }
}

/// An update is counted and blocked at the last base by a join or a query that stands still, or loses its swap; its next
/// search is counted anew, or ends higher up.
fn blocked(routes: u8, emit: &mut impl FnMut(&'static str, Vec<u8>)) {
    for action in [INSERT, REMOVE] {
        for place in 19..=51 {
            for joined in [routes, routes - 1] {
                let mut plan = chained(routes);
                plan.start(1, JOIN, joined);
                plan.until(1, |at| at == place);
                if plan.place(1) != place {
                    continue;
                }
                let mut late = plan.clone();
                plan.alone(0, action, routes);
                plan.alone(2, JOIN, 3);
                plan.finish_all();
                plan.alone(2, JOIN, 3);
                emit("blocked by a join", plan.file());
                for stop in [3, 16, 40, 45, 51] {
                    let mut plan = late.clone();
                    plan.start(0, action, routes);
                    plan.until(0, |at| at == stop);
                    plan.finish(1);
                    plan.finish(0);
                    plan.alone(2, JOIN, 3);
                    emit("blocked by a join that ends", plan.file());
                }
                late.start(0, action, routes);
                late.until(0, |at| at == 5);
                late.finish(1);
                late.finish(0);
                emit("blocked by a join that was done", late.file());
            }
        }
        for (lower, stop) in [(routes, 70), (routes, 81), (routes - 1, 70), (routes - 1, 74), (3, 70), (3, 81)] {
            let mut plan = chained(routes);
            plan.ask(1, lower, 63);
            plan.until(1, |at| at == stop || at == 81);
            plan.alone(0, action, routes);
            plan.alone(2, JOIN, 3);
            plan.finish_all();
            emit("blocked by a query", plan.file());
        }
        for stop in [10, 12, 13] {
            for other in [INSERT, SPLIT, JOIN] {
                let mut plan = chained(routes);
                plan.alone(1, INSERT, routes + 1);
                plan.start(0, action, routes);
                plan.until(0, |at| at == stop);
                plan.alone(1, other, routes);
                plan.finish(0);
                plan.alone(2, JOIN, 3);
                emit("a counted update loses its swap", plan.file());
            }
        }
    }
}

/// No node number is left while a search is counted.
fn short_of_numbers(routes: u8, emit: &mut impl FnMut(&'static str, Vec<u8>)) {
    for action in [LOOKUP, INSERT, SPLIT] {
        let mut plan = chained(routes);
        while plan.left() > 0 && !plan.is_over() {
            plan.alone(3, INSERT, 0);
        }
        plan.start(0, action, routes);
        plan.until(0, |at| at == 4);
        plan.advance(0);
        plan.alone(1, INSERT, 3);
        emit("short of numbers while a search is counted", plan.file());
    }
}

/// The way of a search grows while it walks, so that it is counted where it would not have been; or is cut, so that it is
/// counted though the tree has no such depth any more.
fn grown_and_cut(emit: &mut impl FnMut(&'static str, Vec<u8>)) {
    for routes in [5, 6, 7, 8] {
        for steps in 1..=usize::from(routes) {
            for action in ACTIONS {
                let mut plan = chained(routes);
                plan.start(0, action, 63);
                (0..steps).for_each(|_| plan.advance(0));
                let mut cut = plan.clone();
                for station in routes + 1..routes + 4 {
                    plan.alone(1, INSERT, station);
                    plan.alone(1, SPLIT, station);
                }
                plan.finish(0);
                plan.alone(2, JOIN, 3);
                emit("the way grows", plan.file());
                for station in [routes, 3, 2, 1] {
                    cut.alone(1, JOIN, station);
                }
                cut.alone(1, INSERT, 63);
                cut.finish(0);
                cut.alone(2, JOIN, 3);
                emit("the way is cut", cut.file());
            }
        }
    }
}

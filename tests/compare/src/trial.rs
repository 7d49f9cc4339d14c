//! A round that a constructor tries, and what the walk says of it.

use u_routing::home::evaluation::{route_eval, route_feasible, RouteEval, RouteLimits};
use u_routing::models::Vehicle;

use crate::kinds::{Kind, Seen};
use crate::reference::Table;

/// A round put together from two parts: two rounds, or a round and a stop.
#[derive(Clone)]
pub struct Trial {
    pub parts: [Vec<usize>; 2],
    pub stops: Vec<usize>,
}

/// What a walk can be refused by, in the order in which it is told.
#[derive(Clone, Copy, PartialEq)]
pub enum Why {
    Late,
    Rest,
    Far,
    Long,
}

/// The kinds of a constructor's walks: refused by each of `Why`, then distance and duration at
/// the maximum and one step over.
pub struct WalkKinds {
    pub refused: [Kind; 4],
    pub distance: [Kind; 2],
    pub duration: [Kind; 2],
}

/// The vehicle that makes all rounds of a table.
pub fn driver<'a>(table: &Table<'a>) -> &'a Vehicle {
    &table.vehicles[0]
}

pub fn passes(table: &Table, stops: &[usize]) -> bool {
    let driver = driver(table);
    let limits = RouteLimits::of(driver);
    route_feasible(stops, driver.depot_id(), table.distances, table.customers, &limits)
}

fn eval(table: &Table, stops: &[usize], limits: &RouteLimits) -> Option<RouteEval> {
    route_eval(stops, driver(table).depot_id(), table.distances, table.customers, limits)
}

/// The distance that a round is priced at, infinite where there is none.
pub fn priced(table: &Table, stops: &[usize]) -> f64 {
    let eval = eval(table, stops, &RouteLimits::of(driver(table)));
    eval.map_or(f64::INFINITY, |eval| eval.priced_distance())
}

/// What a round's lateness costs, limits apart; `None` where a hard window is missed.
pub fn lateness(table: &Table, stops: &[usize]) -> Option<f64> {
    eval(table, stops, &RouteLimits::NONE).map(|eval| eval.lateness_cost)
}

pub fn load(table: &Table, stops: &[usize]) -> i32 {
    stops.iter().map(|&stop| table.customers[stop].demand()).sum()
}

/// Why the walk refuses a round, which it does.
pub fn why(table: &Table, stops: &[usize]) -> Why {
    let limits = RouteLimits::of(driver(table));
    if eval(table, stops, &RouteLimits::NONE).is_none() {
        return Why::Late;
    }
    match eval(table, stops, &RouteLimits { rest: limits.rest, ..RouteLimits::NONE }) {
        None => Why::Rest,
        Some(eval) if limits.max_distance.is_some_and(|max| eval.distance > max) => Why::Far,
        Some(_) => Why::Long,
    }
}

impl Seen {
    /// A round that is walked, and whether it passes.
    pub fn walk(&mut self, table: &Table, stops: &[usize], passes: bool, kinds: &WalkKinds) {
        if !passes {
            self.mark(kinds.refused[why(table, stops) as usize], true);
        }
        let limits = RouteLimits::of(driver(table));
        if limits.is_unlimited() {
            return;
        }
        let rest = RouteLimits { rest: limits.rest, ..RouteLimits::NONE };
        let Some(eval) = eval(table, stops, &rest) else { return };
        let over = |max: Option<f64>| max.map(f64::next_up);
        let (distance, duration) = (Some(eval.distance), Some(eval.duration));
        self.mark(kinds.distance[0], distance == limits.max_distance);
        self.mark(kinds.distance[1], distance == over(limits.max_distance));
        self.mark(kinds.duration[0], duration == limits.max_duration);
        self.mark(kinds.duration[1], duration == over(limits.max_duration));
    }

    /// A load that is held to capacity.
    pub fn loaded(&mut self, table: &Table, load: i32, [met, over]: [Kind; 2]) {
        self.mark(met, load == driver(table).capacity());
        self.mark(over, load - 1 == driver(table).capacity());
    }
}

//! What the Rust as it is says of a round whose vehicle may rest at home: its verdict of today, and
//! of a round that is turned down, that of the round with a further stop on the depot's spot put last.

use u_routing::evaluation::{route_eval, RouteEval, RouteEvaluator, RouteLimits};
use u_routing::models::{Route, Solution};

use crate::plan::Chains;
use crate::reference::Problem;
use crate::sheet::{Row, Sheet, HOME};

pub struct Cross {
    marked: Vec<bool>,
    /// The sheet without the mark.
    pub today: Problem,
    /// The same, by depot, with a last row on the depot's spot.
    spots: Vec<Problem>,
}

/// What `route_eval` and `build_route` give.
#[derive(Clone)]
pub struct Answer {
    pub eval: Option<RouteEval>,
    pub route: Route,
}

/// The same sheet where no vehicle may rest at home.
pub fn unmarked(sheet: &Sheet) -> Sheet {
    let mut sheet = sheet.clone();
    sheet.vehicles.iter_mut().for_each(|vehicle| vehicle.marks &= !HOME);
    sheet
}

impl Cross {
    pub fn new(sheet: &Sheet) -> Cross {
        let plain = unmarked(sheet);
        let spot = |depot| Problem::held(&with_spot(&plain, depot));
        Cross {
            marked: sheet.vehicles.iter().map(|vehicle| vehicle.marks & HOME != 0).collect(),
            today: Problem::held(&plain),
            spots: (0..plain.depots()).map(spot).collect(),
        }
    }

    pub fn is_marked(&self, vehicle: usize) -> bool {
        self.marked[vehicle]
    }

    pub fn answer_today(&self, vehicle: usize, stops: &[usize]) -> Answer {
        asked(&self.today, vehicle, stops)
    }

    pub fn answer(&self, vehicle: usize, stops: &[usize]) -> Answer {
        let today = self.answer_today(vehicle, stops);
        if today.eval.is_some() || !self.is_marked(vehicle) {
            return today;
        }
        let spot = &self.spots[self.today.vehicles[vehicle].depot_id()];
        let further = [stops, &[self.today.customers.len()]].concat();
        let Answer { eval, route } = asked(spot, vehicle, &further);
        eval.map_or(today, |eval| Answer { eval: Some(eval), route: but_last(&route) })
    }

    /// The solution of these rounds.
    pub fn solution(&self, chains: &Chains) -> Solution {
        let routes = chains.rounds.iter().map(|(id, stops)| {
            let vehicle = self.today.driver_of(*id);
            self.answer(vehicle, stops).route
        });
        self.today.priced(routes, &chains.aside)
    }
}

fn asked(problem: &Problem, vehicle: usize, stops: &[usize]) -> Answer {
    let Problem { customers, distances, vehicles, .. } = problem;
    let driver = &vehicles[vehicle];
    let limits = RouteLimits::of(driver);
    Answer {
        eval: route_eval(stops, driver.depot_id(), distances, customers, &limits),
        route: RouteEvaluator::new(customers, distances, driver).build_route(stops).0,
    }
}

/// A row more: the same legs to it as to the depot, and none from it home.
fn with_spot(sheet: &Sheet, depot: usize) -> Sheet {
    let rows = sheet.rows.len();
    let spread = |legs: &Vec<f64>| -> Vec<f64> {
        let lines = legs.chunks_exact(rows.max(1));
        let there = lines.flat_map(|line| line.iter().copied().chain([line[depot]]));
        there.chain(vec![0.0; rows + 1]).collect()
    };
    Sheet {
        method: sheet.method,
        rows: sheet.rows.iter().cloned().chain([Row::default()]).collect(),
        vehicles: sheet.vehicles.clone(),
        distances: spread(&sheet.distances),
        times: sheet.times.as_ref().map(spread),
    }
}

/// The record of a round without its last visit.
fn but_last(route: &Route) -> Route {
    let mut shorter = Route::new(route.vehicle_id());
    let kept = route.visits().split_last().map_or(&[][..], |(_, kept)| kept);
    kept.iter().for_each(|visit| shorter.push_visit(visit.clone()));
    shorter.set_total_distance(route.total_distance());
    shorter.set_total_duration(route.total_duration());
    shorter.set_lateness(route.total_lateness(), route.lateness_cost());
    shorter.set_rest(route.rest());
    shorter
}

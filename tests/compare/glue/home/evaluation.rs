//! What is said of a round whose vehicle may rest at home.
//!
//! The original's types carry the mark in the sign of the rest's duration. The original itself is
//! asked without it.

use crate::distance::DistanceMatrix;
use crate::evaluation as today;
use crate::models::{Customer, Route, Vehicle, VehicleBreak, Violation};

pub use today::{has_soft_windows, route_checks_needed, RouteEval, RouteLimits};

pub fn marked(rest: VehicleBreak) -> VehicleBreak {
    VehicleBreak::new(rest.earliest(), rest.latest(), -rest.duration())
}

fn unmarked(rest: VehicleBreak) -> VehicleBreak {
    VehicleBreak::new(rest.earliest(), rest.latest(), rest.duration().abs())
}

fn has_mark(rest: &VehicleBreak) -> bool {
    rest.duration().is_sign_negative()
}

pub fn is_marked(vehicle: &Vehicle) -> bool {
    vehicle.rest().is_some_and(|rest| has_mark(&rest))
}

/// The limits without the mark.
pub fn unmarked_limits(limits: &RouteLimits) -> RouteLimits {
    RouteLimits { rest: limits.rest.map(unmarked), ..*limits }
}

pub fn route_feasible(
    route: &[usize],
    depot: usize,
    distances: &DistanceMatrix,
    customers: &[Customer],
    limits: &RouteLimits,
) -> bool {
    today::route_feasible(route, depot, distances, customers, &unmarked_limits(limits))
        || mended(route, depot, distances, customers, limits).is_some()
}

pub fn route_eval(
    route: &[usize],
    depot: usize,
    distances: &DistanceMatrix,
    customers: &[Customer],
    limits: &RouteLimits,
) -> Option<RouteEval> {
    today::route_eval(route, depot, distances, customers, &unmarked_limits(limits))
        .or_else(|| mended(route, depot, distances, customers, limits))
}

pub fn effective_cost(
    route: &[usize],
    depot: usize,
    distances: &DistanceMatrix,
    customers: &[Customer],
    limits: &RouteLimits,
) -> f64 {
    route_eval(route, depot, distances, customers, limits)
        .map_or(f64::INFINITY, |eval| eval.priced_distance())
}

/// A round that is turned down today, with the rest on its return.
fn mended(
    route: &[usize],
    depot: usize,
    distances: &DistanceMatrix,
    customers: &[Customer],
    limits: &RouteLimits,
) -> Option<RouteEval> {
    let rest = limits.rest.filter(has_mark)?;
    let walked = today::route_eval(route, depot, distances, customers, &RouteLimits::NONE)?;
    let start = walked.duration.max(rest.earliest());
    let end = start + unmarked(rest).duration();
    let kept = start <= rest.latest() && limits.allow(walked.distance, end);
    kept.then_some(RouteEval { duration: end, rest: Some((route.len(), start)), ..walked })
}

pub struct RouteEvaluator<'a> {
    customers: &'a [Customer],
    distances: &'a DistanceMatrix,
    vehicle: &'a Vehicle,
}

impl<'a> RouteEvaluator<'a> {
    pub fn new(
        customers: &'a [Customer],
        distances: &'a DistanceMatrix,
        vehicle: &'a Vehicle,
    ) -> Self {
        Self { customers, distances, vehicle }
    }

    pub fn build_route(&self, stops: &[usize]) -> (Route, Vec<Violation>) {
        let &Self { customers, distances, vehicle } = self;
        let (depot, limits) = (vehicle.depot_id(), RouteLimits::of(vehicle));
        let plain = unmarked_limits(&limits);
        let passes = || today::route_feasible(stops, depot, distances, customers, &plain);
        match mended(stops, depot, distances, customers, &limits) {
            Some(mended) if !passes() => {
                let restless = Vehicle::new(vehicle.id(), vehicle.capacity()).with_depot(depot);
                let (mut route, violations) = self.built_today(&restless, stops);
                route.set_total_duration(mended.duration);
                route.set_rest(mended.rest);
                (route, violations)
            }
            _ => match plain.rest {
                Some(rest) => self.built_today(&vehicle.clone().with_break(rest), stops),
                None => self.built_today(vehicle, stops),
            },
        }
    }

    fn built_today(&self, vehicle: &Vehicle, stops: &[usize]) -> (Route, Vec<Violation>) {
        today::RouteEvaluator::new(self.customers, self.distances, vehicle).build_route(stops)
    }
}

//! What the rounds of a plan have met when they are walked anew.

use u_routing::models::Route;

use crate::plan::round_at;
use crate::sheet::{field, Row, Vehicle, MAX_DISTANCE, MAX_DURATION, PENALTY, REST, WINDOW};
use crate::walked::{figures, rests_at_home, Walked};

/// A round with stops, and its place in the plan.
struct Driven<'a> {
    plan: &'a [u8],
    walked: &'a Walked,
    vehicle: &'a Vehicle,
    route: &'a Route,
    place: usize,
}

const ROUNDS: &[(&str, fn(&Driven) -> bool)] = &[
    ("a rest on the way", |it| it.route.rest().is_some_and(|(at, _)| at < it.route.len())),
    ("a rest at home", |it| rests_at_home(it.route)),
    ("no place for the rest", |it| {
        let late = it.route.total_duration() > it.vehicle.earliest;
        it.vehicle.marks & REST != 0 && it.route.rest().is_none() && late
    }),
    ("a wait for a window", |it| it.visits(|row, arrival| arrival < row.ready)),
    ("late at a soft window", |it| it.route.total_lateness() > 0.0),
    ("a hard window missed", |it| {
        it.visits(|row, arrival| row.marks & (WINDOW | PENALTY) == WINDOW && arrival > row.due)
    }),
    ("over capacity", |it| it.route.total_load() > it.vehicle.capacity),
    ("over the maximum distance", |it| {
        it.vehicle.marks & MAX_DISTANCE != 0 && it.route.total_distance() > it.vehicle.max_distance
    }),
    ("over the maximum duration", |it| {
        it.vehicle.marks & MAX_DURATION != 0 && it.route.total_duration() > it.vehicle.max_duration
    }),
    ("home after the depot's due", |it| {
        let due = it.walked.sheet.home_due(it.vehicle);
        due.is_some_and(|due| it.route.total_duration() > due)
    }),
    ("a round from another depot than row 0", |it| it.vehicle.depot > 0),
    ("other figures in the plan's record", |it| {
        let record = |at| f64::from_le_bytes(field(it.plan, round_at(it.place) + at));
        [16, 24].map(record) != figures(it.route)
    }),
];

const PLANS: &[(&str, fn(&Walked) -> bool)] = &[
    ("no row", |it| it.sheet.rows.is_empty()),
    ("no stop", |it| it.sheet.rows.len() == it.sheet.depots()),
    ("no round, of some stops", |it| it.has_rounds(0) && it.sheet.rows.len() > it.sheet.depots()),
    ("no vehicle", |it| it.sheet.vehicles.is_empty()),
    ("as many rounds as rows", |it| it.has_rounds(it.sheet.rows.len()) && !it.has_rounds(0)),
    ("an empty round first", |it| it.empty().first() == Some(&true)),
    ("an empty round between others", |it| {
        it.empty().windows(3).any(|three| three == [false, true, false])
    }),
    ("an empty round last", |it| it.empty().last() == Some(&true)),
    ("all rounds empty", |it| !it.has_rounds(0) && !it.empty().contains(&false)),
    ("stops set aside", |it| !it.chains.aside.is_empty()),
    ("a vehicle of several rounds", |it| {
        let ids: Vec<u32> = it.chains.rounds.iter().map(|(id, _)| *id).collect();
        ids.iter().enumerate().any(|(k, id)| ids[..k].contains(id))
    }),
    ("rounds from all of several depots", |it| {
        let from = |depot: usize| {
            let here = |vehicle: &Vehicle| vehicle.depot as usize == depot;
            let of = |id: u32| it.sheet.vehicles.iter().any(|own| own.id == id && here(own));
            it.chains.rounds.iter().any(|(id, stops)| of(*id) && !stops.is_empty())
        };
        it.sheet.depots() > 1 && (0..it.sheet.depots()).all(from)
    }),
    ("times of their own", |it| it.sheet.times.is_some()),
    ("101 rows", |it| it.sheet.rows.len() == 101),
    ("101 rounds", |it| it.has_rounds(101)),
];

pub fn kinds() -> impl Iterator<Item = &'static str> {
    ROUNDS.iter().map(|(name, _)| *name).chain(PLANS.iter().map(|(name, _)| *name))
}

/// The kinds that a plan is of.
pub fn met(plan: &[u8], walked: &Walked) -> Vec<&'static str> {
    let driven = driven(plan, walked);
    let of_rounds = ROUNDS.iter().filter(|(_, is)| driven.iter().any(is)).map(|(name, _)| *name);
    let of_plan = PLANS.iter().filter(|(_, is)| is(walked)).map(|(name, _)| *name);
    of_rounds.chain(of_plan).collect()
}

/// The rounds with stops.
fn driven<'a>(plan: &'a [u8], walked: &'a Walked) -> Vec<Driven<'a>> {
    let routes = walked.routes().iter().enumerate();
    let of = |(place, route): (usize, &'a Route)| {
        let own = |vehicle: &&Vehicle| vehicle.id as usize == route.vehicle_id();
        let vehicle = walked.sheet.vehicles.iter().find(own).expect("an id of the sheet's");
        Driven { plan, walked, vehicle, route, place }
    };
    routes.filter(|(_, route)| !route.is_empty()).map(of).collect()
}

impl Driven<'_> {
    /// Whether one of the stops is arrived at so.
    fn visits(&self, so: impl Fn(&Row, f64) -> bool) -> bool {
        let rows = &self.walked.sheet.rows;
        self.route.visits().iter().any(|visit| so(&rows[visit.customer_id], visit.arrival_time))
    }
}

//! Wrong readings of request Four, each of which the Rust as it is has to tell from the right one.

use u_routing::evaluation::{RouteEval, RouteLimits};
use u_routing::models::{Route, Vehicle};

use crate::cross::{Answer, Cross};
use crate::fit::Round;

#[derive(Clone, Copy, PartialEq)]
pub enum Wrong {
    HomeFirst,
    DueOfReturn,
    MissedWindow,
    NoLimits,
    LateDeparture,
    LatestExcluded,
    WindowsAlone,
    EveryRest,
}

pub const WRONG: [(Wrong, &str); 8] = [
    (Wrong::HomeFirst, "home tried first"),
    (Wrong::DueOfReturn, "the due held to the return"),
    (Wrong::MissedWindow, "a missed window mended"),
    (Wrong::NoLimits, "limits not asked"),
    (Wrong::LateDeparture, "the end counted into the last departure"),
    (Wrong::LatestExcluded, "no start at latest"),
    (Wrong::WindowsAlone, "no mending of what a limit turned down"),
    (Wrong::EveryRest, "unmarked vehicles rest at home too"),
];

/// A round with its vehicle's own maximum duration, and its depot's due.
pub struct Asked<'a> {
    pub cross: &'a Cross,
    pub round: &'a Round,
    pub max_duration: Option<f64>,
    pub due: Option<f64>,
}

impl Asked<'_> {
    fn driver(&self) -> &Vehicle {
        &self.cross.today.vehicles[self.round.vehicle]
    }

    pub fn answer(&self, wrong: Wrong) -> Answer {
        let Round { vehicle, stops } = self.round;
        let today = self.cross.answer_today(*vehicle, stops);
        let asks = wrong == Wrong::EveryRest || self.cross.is_marked(*vehicle);
        let kept = match wrong {
            Wrong::HomeFirst => false,
            Wrong::WindowsAlone => today.eval.is_some() || self.is_placed(),
            _ => today.eval.is_some(),
        };
        if kept || !asks {
            return today;
        }
        self.mended(wrong).unwrap_or(today)
    }

    /// Whether the rest has a place today, limits apart.
    fn is_placed(&self) -> bool {
        let rest = RouteLimits { rest: self.driver().rest(), ..RouteLimits::NONE };
        self.cross.today.eval(self.driver(), &self.round.stops, &rest).is_some()
    }

    fn mended(&self, wrong: Wrong) -> Option<Answer> {
        let (stops, today) = (&self.round.stops, &self.cross.today);
        let rest = self.driver().rest()?;
        let walked = today.eval(self.driver(), stops, &RouteLimits::NONE);
        let mut route = today.walked(self.driver(), stops);
        let (distance, back) = (route.total_distance(), route.total_duration());
        let start = back.max(rest.earliest());
        let end = start + rest.duration();
        let in_time = match wrong {
            Wrong::LatestExcluded => start < rest.latest(),
            _ => start <= rest.latest(),
        };
        let on_time = walked.is_some() || wrong == Wrong::MissedWindow;
        if !in_time || !on_time || !self.allows(distance, back, end, wrong) {
            return None;
        }
        if wrong == Wrong::LateDeparture {
            route = departing(&route, end);
        }
        let rest = Some((stops.len(), start));
        route.set_total_duration(end);
        route.set_rest(rest);
        let (lateness, lateness_cost) = (route.total_lateness(), route.lateness_cost());
        let eval = RouteEval { distance, duration: end, lateness, lateness_cost, rest };
        Some(Answer { eval: Some(eval), route })
    }

    fn allows(&self, distance: f64, back: f64, end: f64, wrong: Wrong) -> bool {
        let limits = RouteLimits::of(self.driver());
        match wrong {
            Wrong::NoLimits => true,
            Wrong::DueOfReturn => {
                let own = RouteLimits { max_duration: self.max_duration, ..limits };
                own.allow(distance, end) && self.due.is_none_or(|due| back <= due)
            }
            _ => limits.allow(distance, end),
        }
    }
}

/// The same with a later departure from the last stop.
fn departing(route: &Route, end: f64) -> Route {
    let mut later = Route::new(route.vehicle_id());
    let last = route.visits().len().saturating_sub(1);
    for (k, visit) in route.visits().iter().enumerate() {
        let mut visit = visit.clone();
        if k == last {
            visit.departure_time = end;
        }
        later.push_visit(visit);
    }
    later.set_total_distance(route.total_distance());
    later.set_lateness(route.total_lateness(), route.lateness_cost());
    later
}

//! Fits a sheet to a round that can rest at home only, or just not there either.

use u_routing::models::Route;

use crate::fit::Round;
use crate::generate::beside;
use crate::random::Random;
use crate::reference::Problem;
use crate::refusal::{MOST_FIGURE, MOST_MAXIMUM};
use crate::sheet::{Sheet, HOME, MAX_DISTANCE, MAX_DURATION, PENALTY, REST, WINDOW};

/// Lets a round's vehicle rest at home, from its return on or a step beside it, and turns the round
/// down otherwise.
pub fn fit_rest_at_home(sheet: &mut Sheet, round: &Round, random: &mut Random) {
    if round.stops.is_empty() {
        set_idle(sheet, round, random);
    } else if random.one_in(4) {
        make_late(sheet, round, random);
    }
    let route = walked(sheet, round);
    if route.total_duration() > MOST_FIGURE {
        return;
    }
    let end = set_rest(sheet, round, &route, random);
    for _ in 0..random.pick(&[1, 1, 2]) {
        match random.below(5) {
            0 | 1 => close_window(sheet, &route, random),
            2 => {
                let vehicle = &mut sheet.vehicles[round.vehicle];
                vehicle.marks |= MAX_DURATION;
                vehicle.max_duration = beside(random, end, MOST_MAXIMUM);
            }
            3 => close_gate(sheet, round, end, random),
            _ => {
                let vehicle = &mut sheet.vehicles[round.vehicle];
                vehicle.marks |= MAX_DISTANCE;
                vehicle.max_distance = beside(random, route.total_distance(), MOST_MAXIMUM);
            }
        }
    }
}

fn walked(sheet: &Sheet, round: &Round) -> Route {
    let problem = Problem::taken(sheet);
    problem.walked(&problem.vehicles[round.vehicle], &round.stops)
}

/// An empty round that takes time.
fn set_idle(sheet: &mut Sheet, round: &Round, random: &mut Random) {
    let depot = sheet.vehicles[round.vehicle].depot as usize;
    let leg = depot * sheet.rows.len() + depot;
    sheet.times.as_mut().unwrap_or(&mut sheet.distances)[leg] = random.pick(&[0.3, 1.0, 3.0, 7.0]);
}

/// A stop of the round that is late without a rest too, its window soft.
fn make_late(sheet: &mut Sheet, round: &Round, random: &mut Random) {
    let visits = walked(sheet, round);
    let visit = &visits.visits()[random.below(round.stops.len())];
    let row = &mut sheet.rows[visit.customer_id];
    row.marks |= WINDOW | PENALTY;
    row.due = (visit.arrival_time / 2.0).floor().min(MOST_FIGURE);
    row.ready = row.ready.min(row.due);
    row.penalty = random.pick(&[0.1, 0.5, 1.0]);
}

/// A rest that is needed, and that waits where it stands before the last stop; its end at home.
fn set_rest(sheet: &mut Sheet, round: &Round, route: &Route, random: &mut Random) -> f64 {
    let back = route.total_duration();
    let arrival = route.visits().last().map_or(0.0, |visit| visit.arrival_time);
    // Whole, where the walk is.
    let drawn = |x: f64| if back.fract() == 0.0 { x.ceil() } else { x };
    let between = drawn(arrival + (back - arrival) * random.unit());
    let [any, long] = [0; 2].map(|_| drawn(back * random.unit()));
    let latest = beside(random, back, MOST_FIGURE);
    let vehicle = &mut sheet.vehicles[round.vehicle];
    vehicle.marks |= REST | HOME;
    let earliest = random.pick(&[0.0, arrival, between, between, any, back.next_down()]);
    vehicle.earliest = earliest.clamp(0.0, back);
    vehicle.rest_duration = random.pick(&[vehicle.rest_duration, 1.0, long, long]);
    let later = (back + vehicle.rest_duration).min(MOST_FIGURE);
    vehicle.latest = random.pick(&[latest, latest, later, MOST_FIGURE]).max(vehicle.earliest);
    back.max(vehicle.earliest) + vehicle.rest_duration
}

/// A window of a stop, often the last, that closes just as the vehicle comes without a rest.
fn close_window(sheet: &mut Sheet, route: &Route, random: &mut Random) {
    let count = route.visits().len();
    if count == 0 {
        return;
    }
    let any = random.below(count);
    let visit = &route.visits()[random.pick(&[count - 1, any])];
    let row = &mut sheet.rows[visit.customer_id];
    row.marks |= WINDOW;
    row.due = beside(random, visit.arrival_time.max(row.ready), MOST_FIGURE).max(row.ready);
    if !random.one_in(4) {
        row.marks &= !PENALTY;
        row.penalty = 0.0;
    }
}

/// A depot that closes just as the rest ends.
fn close_gate(sheet: &mut Sheet, round: &Round, end: f64, random: &mut Random) {
    let row = &mut sheet.rows[sheet.vehicles[round.vehicle].depot as usize];
    row.marks |= WINDOW;
    row.due = beside(random, end, MOST_FIGURE);
    row.ready = row.ready.min(row.due);
}

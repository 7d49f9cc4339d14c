//! Sheets where a rest can stand at home only: every stop has a hard window, which closes before any
//! rest ends. The Rust without rests plans them, its maximum durations the vehicles' latest; only
//! duration, rest place and rest start are other ones.

use u_routing::models::Solution;

use crate::plan::{encode, Chains};
use crate::random::Random;
use crate::reference::Problem;
use crate::refusal::MOST_FIGURE;
use crate::sheet::{Sheet, HOME, MAX_DISTANCE, MAX_DURATION, NEAREST, PENALTY, REST, WINDOW};

/// No window closes later, and every rest is longer.
const MOST_DUE: f64 = MOST_FIGURE / 2.0;
/// When no vehicle is out any more.
const NEVER: f64 = 1e15;

/// Such a sheet, made of another.
pub fn hardened(sheet: &Sheet, random: &mut Random) -> Sheet {
    let mut sheet = sheet.clone();
    let depots = sheet.depots();
    for (k, row) in sheet.rows.iter_mut().enumerate() {
        let due = random.pick(&[100.0, 1000.0, MOST_DUE, MOST_DUE]);
        if k < depots {
            row.marks &= !WINDOW;
            (row.ready, row.due) = (0.0, 0.0);
            continue;
        }
        if row.marks & WINDOW == 0 {
            (row.ready, row.due) = (0.0, due);
        }
        row.marks = (row.marks | WINDOW) & !PENALTY;
        (row.ready, row.due) = (row.ready.min(MOST_DUE), row.due.min(MOST_DUE));
        row.penalty = 0.0;
    }
    for vehicle in &mut sheet.vehicles {
        let most = random.pick(&[20.0, 100.0, 300.0, MOST_FIGURE]);
        if vehicle.marks & REST == 0 {
            vehicle.latest = most;
        }
        vehicle.marks = (vehicle.marks & MAX_DISTANCE) | REST | HOME;
        vehicle.max_duration = 0.0;
        (vehicle.earliest, vehicle.rest_duration) = (0.0, MOST_FIGURE);
    }
    sheet
}

pub fn plan(sheet: &Sheet) -> Vec<u8> {
    let problem = Problem::taken(&restless(sheet));
    encode(sheet.rows.len(), &rested(problem.solution(), &problem))
}

pub fn limited(sheet: &Sheet, chains: &Chains, greatest: u32) -> Vec<u8> {
    let problem = Problem::held(&restless(sheet));
    let solution = problem.limited(chains.clone(), greatest as usize);
    encode(sheet.rows.len(), &rested(solution, &problem))
}

/// The sheet without rests. Nearest neighbour asks for windows only where there is one, so it gets one
/// that no round needs.
fn restless(sheet: &Sheet) -> Sheet {
    let mut sheet = sheet.clone();
    for vehicle in &mut sheet.vehicles {
        vehicle.marks = (vehicle.marks & MAX_DISTANCE) | MAX_DURATION;
        vehicle.max_duration = vehicle.latest;
        if sheet.method == NEAREST {
            vehicle.marks |= REST;
            (vehicle.earliest, vehicle.latest) = (NEVER, NEVER);
        }
    }
    sheet
}

/// The rests of the rounds that need one and pass.
fn rested(mut solution: Solution, problem: &Problem) -> Solution {
    for route in solution.routes_mut() {
        let driver = &problem.vehicles[problem.driver_of(route.vehicle_id() as u32)];
        let (stops, back) = (route.customer_ids(), route.total_duration());
        if back > 0.0 && problem.passes(driver, &stops) {
            route.set_total_duration(back + MOST_FIGURE);
            route.set_rest(Some((stops.len(), back)));
        }
    }
    solution
}

//! `compare bench plans`: the planner against the Rust, in one process on the same sheets.
//!
//! Both go from a sheet's bytes to a plan's; around the Rust's construction that is this harness's
//! check, reading and writing. The construction alone, from the Rust's own types to its own
//! solution, is shown besides: of what the planner does it leaves out the check and the bytes. Reasons
//! are the planner's alone.

use crate::bench_sides::{Drive, Side};
use crate::generate::straight;
use crate::plan::plan_len;
use crate::planner;
use crate::plans::exact;
use crate::random::Random;
use crate::reference::{plan, plan_by_rust, Problem};
use crate::refusal::{needs_vehicle, OFFERED};
use crate::sheet::{Row, Sheet, Vehicle, DEPOT, PENALTY, REST, WINDOW};

const ROWS: [usize; 3] = [10, 50, 101];
const DEPOTS: [usize; 2] = [1, 3];
pub const CAPACITIES: [&str; 2] = ["tight", "unlimited"];
pub const FEATURES: [&str; 4] = ["plain", "windows", "rest", "soft"];
pub const LEGS: [&str; 2] = ["symmetric", "directed"];

#[derive(Clone, Copy)]
pub struct Case {
    pub method: u8,
    pub rows: usize,
    pub depots: usize,
    pub capacity: &'static str,
    pub legs: &'static str,
    pub feature: &'static str,
}

pub struct Planning {
    sheet: Vec<u8>,
    problem: Problem,
    plan: Vec<u8>,
}

/// A method of many vehicles is tried with one depot and three, one of one vehicle with legs that
/// are alike both ways and with others.
fn cases_of(method: u8) -> Vec<Case> {
    let one_vehicle = needs_vehicle(method);
    let depots = &DEPOTS[..if one_vehicle { 1 } else { DEPOTS.len() }];
    let legs = &LEGS[..if one_vehicle { LEGS.len() } else { 1 }];
    let mut cases = Vec::new();
    for rows in ROWS {
        for &depots in depots {
            for capacity in CAPACITIES {
                for &legs in legs {
                    let case = |feature| Case { method, rows, depots, capacity, legs, feature };
                    cases.extend(FEATURES.map(case));
                }
            }
        }
    }
    cases
}

impl Drive for Planning {
    type Case = Case;
    const NAME: &'static str = "plans";
    const CORE: &'static str = "construction";
    const HEAD: &'static str = "method | rows | depots | capacity | legs | ";

    fn cases() -> Vec<Case> {
        OFFERED.iter().flat_map(|&method| cases_of(method)).collect()
    }

    fn columns(case: Case) -> String {
        let Case { method, rows, depots, capacity, legs, feature } = case;
        format!("{method} | {rows} | {depots} | {capacity} | {legs} | {feature}")
    }

    fn new(case: Case) -> Planning {
        let sheet = sheet(case);
        let bytes = sheet.encode();
        let right = plan(OFFERED, &bytes).expect("an accepted sheet");
        let problem = Problem::taken(&sheet);
        let mut drive = Planning { sheet: bytes, problem, plan: vec![0; plan_len(case.rows)] };
        drive.drive(Side::Port);
        let exact = exact(&sheet, &drive.problem).map(|exact| exact.plan);
        assert!(drive.plan == exact.unwrap_or(right), "the planner's plan is the Rust's");
        drive
    }

    fn drive(&mut self, side: Side) -> usize {
        match side {
            Side::Port => planner::plan(&self.sheet, &mut self.plan) as usize,
            Side::Rust => plan_by_rust(OFFERED, &self.sheet).map_or(0, |plan| plan.len()),
            Side::Core => self.problem.solution().num_routes(),
        }
    }
}

/// Stops on a square, and vehicles that take most of them: one depot's first vehicle all that it
/// can where capacity is unlimited, each about its share where it is tight.
pub fn sheet(case: Case) -> Sheet {
    let mut random = Random::new(1);
    let vehicles = if case.rows > 10 { 8 } else { 4 };
    let share = (case.rows - case.depots) as f64 / vehicles as f64;
    let round = if case.capacity == "tight" { share } else { share * vehicles as f64 };
    // About what a round takes.
    let horizon = 15.0 * round;
    let rows = (0..case.rows).map(|k| row(&mut random, case, k < case.depots, horizon));
    let rows: Vec<Row> = rows.collect();
    let load: i32 = rows[case.depots..].iter().map(|row| row.demand).sum();
    let capacity = if case.capacity == "tight" { load / vehicles + 5 } else { 1_000_000_000 };
    let legs = (0..case.rows * case.rows).map(|k| (&rows[k / case.rows], &rows[k % case.rows]));
    let distances = legs.map(|(from, to)| leg(case, from, to)).collect();
    let vehicles = (0..vehicles as u32).map(|k| vehicle(case, k, capacity, horizon)).collect();
    Sheet { method: case.method, rows, vehicles, distances, times: None }
}

/// Uphill is farther where legs are directed.
fn leg(case: Case, from: &Row, to: &Row) -> f64 {
    let uphill = case.legs == "directed" && from.y < to.y;
    straight(from, to) * if uphill { 1.1 } else { 1.0 }
}

fn row(random: &mut Random, case: Case, depot: bool, horizon: f64) -> Row {
    let mut row = Row {
        x: random.below(100) as i32,
        y: random.below(100) as i32,
        demand: 1 + random.below(9) as i32,
        marks: if depot { DEPOT } else { 0 },
        service: random.below(10) as f64,
        ..Row::default()
    };
    let ready = random.below(horizon as usize) as f64;
    if !depot && matches!(case.feature, "windows" | "soft") {
        row.marks |= WINDOW;
        (row.ready, row.due) = (ready, ready + horizon);
    }
    if !depot && case.feature == "soft" {
        row.marks |= PENALTY;
        row.penalty = 0.5;
    }
    row
}

fn vehicle(case: Case, k: u32, capacity: i32, horizon: f64) -> Vehicle {
    let plain = Vehicle {
        id: k,
        depot: k % case.depots as u32,
        capacity,
        cost_per_distance: 1.0,
        fixed_cost: 100.0,
        ..Vehicle::default()
    };
    if case.feature != "rest" {
        return plain;
    }
    Vehicle {
        marks: REST,
        earliest: (horizon / 3.0).floor(),
        latest: 2.0 * horizon,
        rest_duration: 30.0,
        ..plain
    }
}

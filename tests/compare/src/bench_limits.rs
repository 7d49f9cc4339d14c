//! `compare bench limits`: the limiter against the Rust, in one process on the same plans: lone rounds
//! of 100 stops, and two rounds of 50, brought within fewer.
//!
//! Both go from the bytes of sheet and plan in to those of the plan out; `limit_routes` alone, from
//! the Rust's own types to its own, is shown besides.

use u_routing::fleet::limit_routes;

use crate::bench_plans::{self, sheet, CAPACITIES, FEATURES, LEGS};
use crate::bench_sides::{Drive, Side};
use crate::plan::{encode_chains, plan_len, Chains};
use crate::planner;
use crate::reference::{limit, Problem};
use crate::sheet::{Sheet, NEAREST};

const ROWS: usize = 101;
/// The rounds of the plan in, and the greatest number.
const LIMITS: [(usize, u32); 3] = [(100, 16), (100, 1), (2, 1)];

/// The stops in order, as many to each round; vehicles in turn.
pub fn shared_out(sheet: &Sheet, rounds: usize) -> Chains {
    let stops: Vec<usize> = (1..sheet.rows.len()).collect();
    let ids = sheet.vehicles.iter().map(|vehicle| vehicle.id).cycle();
    let rounds = stops.chunks(stops.len() / rounds).map(|stops| stops.to_vec());
    Chains { rounds: ids.zip(rounds).collect(), aside: vec![] }
}

#[derive(Clone, Copy)]
pub struct Case {
    rounds: usize,
    greatest: u32,
    capacity: &'static str,
    feature: &'static str,
}

pub struct Limiting {
    sheet: Vec<u8>,
    plan_in: Vec<u8>,
    greatest: u32,
    plan_out: Vec<u8>,
    problem: Problem,
    routes: Vec<Vec<usize>>,
    vehicles: Vec<usize>,
}

impl Drive for Limiting {
    type Case = Case;
    const NAME: &'static str = "limits";
    const CORE: &'static str = "limit_routes";
    const HEAD: &'static str = "rounds | greatest | capacity | ";

    fn cases() -> Vec<Case> {
        let of = |(rounds, greatest)| {
            let case = move |capacity, feature| Case { rounds, greatest, capacity, feature };
            CAPACITIES.into_iter().flat_map(move |c| FEATURES.map(|feature| case(c, feature)))
        };
        LIMITS.into_iter().flat_map(of).collect()
    }

    fn columns(case: Case) -> String {
        let Case { rounds, greatest, capacity, feature } = case;
        format!("{rounds} | {greatest} | {capacity} | {feature}")
    }

    fn new(case: Case) -> Limiting {
        let Case { rounds, greatest, capacity, feature } = case;
        let (rows, legs) = (ROWS, LEGS[0]);
        let method = NEAREST;
        let sheet = sheet(bench_plans::Case { method, rows, depots: 1, capacity, legs, feature });
        let (problem, chains) = (Problem::held(&sheet), shared_out(&sheet, rounds));
        let mut drive = Limiting {
            sheet: sheet.encode(),
            plan_in: encode_chains(rows, &chains),
            greatest,
            plan_out: vec![0; plan_len(rows)],
            vehicles: chains.rounds.iter().map(|(id, _)| problem.driver_of(*id)).collect(),
            routes: chains.rounds.into_iter().map(|(_, stops)| stops).collect(),
            problem,
        };
        drive.drive(Side::Port);
        let right = limit(&drive.sheet, &drive.plan_in, greatest).expect("an accepted call");
        assert!(drive.plan_out == right, "the limiter's plan out is the Rust's");
        drive
    }

    fn drive(&mut self, side: Side) -> usize {
        let Limiting { sheet, plan_in, greatest, plan_out, problem, routes, vehicles } = self;
        match side {
            Side::Port => planner::limit(sheet, plan_in, *greatest, plan_out) as usize,
            Side::Rust => limit(sheet, plan_in, *greatest).map_or(0, |plan| plan.len()),
            Side::Core => {
                let Problem { customers, distances, vehicles: fleet, .. } = problem;
                let (routes, vehicles) = (routes.clone(), vehicles.clone());
                let most = *greatest as usize;
                limit_routes(routes, vehicles, fleet, most, distances, customers).routes.len()
            }
        }
    }
}

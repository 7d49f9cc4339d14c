//! `compare bench bills` and `compare bench deals`: against this harness's own over the Rust's figures, in
//! one process on the same plans of 101 rows.
//!
//! Both go from the bytes of sheet and plan to those of the answer; `build_route` alone, of all rounds
//! in the Rust's own types, is shown besides.

use u_routing::models::Route;

use crate::bench_limits::shared_out;
use crate::bench_plans::{self, sheet, CAPACITIES, FEATURES, LEGS};
use crate::bench_sides::{Drive, Side};
use crate::billing::Tariff;
use crate::dealing::Crews;
use crate::fit::Round;
use crate::limiting::rounds;
use crate::plan::encode_chains;
use crate::plan_answers::Answered;
use crate::reference::Problem;
use crate::sheet::NEAREST;

const ROWS: usize = 101;
const ROUNDS: [usize; 4] = [100, 20, 4, 1];

/// What is asked when it is timed.
pub trait Timed: Answered {
    const ASKED: Self;
}

impl Timed for Tariff {
    const ASKED: Tariff = Tariff { rates: [7, 11], least: 20 };
}

impl Timed for Crews {
    const ASKED: Crews = Crews(8);
}

#[derive(Clone, Copy)]
pub struct Case {
    rounds: usize,
    feature: &'static str,
}

pub struct Asking<A> {
    asked: A,
    sheet: Vec<u8>,
    plan: Vec<u8>,
    buffer: Vec<u8>,
    problem: Problem,
    rounds: Vec<Round>,
}

impl<A: Timed> Drive for Asking<A> {
    type Case = Case;
    const NAME: &'static str = A::NAME;
    const CORE: &'static str = "build_route";
    const HEAD: &'static str = "rounds | ";

    fn cases() -> Vec<Case> {
        let of = |rounds| FEATURES.map(|feature| Case { rounds, feature });
        ROUNDS.into_iter().flat_map(of).collect()
    }

    fn columns(case: Case) -> String {
        format!("{} | {}", case.rounds, case.feature)
    }

    fn new(case: Case) -> Asking<A> {
        let (rows, capacity, legs) = (ROWS, CAPACITIES[0], LEGS[0]);
        let Case { rounds: count, feature } = case;
        let method = NEAREST;
        let sheet = sheet(bench_plans::Case { method, rows, depots: 1, capacity, legs, feature });
        let (problem, chains) = (Problem::held(&sheet), shared_out(&sheet, count));
        let plan = encode_chains(rows, &chains);
        let buffer = vec![0; A::len_for(&plan)];
        let (asked, rounds) = (A::ASKED, rounds(&problem, &chains));
        let mut drive = Asking { asked, sheet: sheet.encode(), plan, buffer, problem, rounds };
        drive.drive(Side::Port);
        assert!(drive.buffer == drive.answered(), "the answer is the harness's");
        drive
    }

    fn drive(&mut self, side: Side) -> usize {
        match side {
            Side::Port => self.asked.ask(&self.sheet, &self.plan, &mut self.buffer) as usize,
            Side::Rust => self.answered().len(),
            Side::Core => built(&self.problem, &self.rounds).map(|route| route.len()).sum(),
        }
    }
}

impl<A: Timed> Asking<A> {
    fn answered(&self) -> Vec<u8> {
        let accepted = self.asked.accepted(&self.sheet, &self.plan, self.buffer.len());
        let (sheet, chains) = accepted.expect("an accepted call");
        let problem = Problem::held(&sheet);
        let routes = built(&problem, &rounds(&problem, &chains)).collect::<Vec<_>>();
        self.asked.bytes(&routes)
    }
}

fn built<'a>(problem: &'a Problem, rounds: &'a [Round]) -> impl Iterator<Item = Route> + 'a {
    let of = |round: &Round| problem.built(&problem.vehicles[round.vehicle], &round.stops);
    rounds.iter().map(of)
}

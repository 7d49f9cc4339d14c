//! Sheets and plans of which bills and deals are worked out by hand.

use crate::billing::Tariff;
use crate::dealing::Crews;
use crate::plan::{encode_chains, Chains};
use crate::plan_calls::{Asked, Call};
use crate::selftest::sheet_a;
use crate::sheet::{Row, Sheet, Vehicle, DEPOT, SAVINGS, WINDOW};

/// What is said to a call for a bill and to one for a deal, with buffers for so many rounds.
pub fn refusals(sheet: &[u8], plan: &[u8], rounds: usize) -> [u32; 2] {
    let tariff = Tariff { rates: [7, 11], least: 0 };
    [tariff.accepted(sheet, plan, Tariff::len(rounds)), Crews(2).accepted(sheet, plan, rounds)]
        .map(|accepted| accepted.err().unwrap_or(0))
}

/// Rounds of vehicle 7.
pub fn plan(rounds: &[&[usize]], aside: &[usize]) -> Chains {
    let rounds = rounds.iter().map(|stops| (7, stops.to_vec())).collect();
    Chains { rounds, aside: aside.to_vec() }
}

pub fn call<A: Asked>(sheet: &Sheet, chains: &Chains, asked: A) -> Call<A> {
    let plan = encode_chains(sheet.rows.len(), chains);
    let len = A::len_for(&plan);
    Call { flavour: 0, sheet: sheet.encode(), plan, asked, len }
}

/// Sheet A with a leg from stop 2 home that makes the round 1, 2 so long, and at times others.
pub fn of_length(length: f64, duration: Option<f64>) -> Sheet {
    let mut sheet = sheet_a(SAVINGS);
    sheet.distances[6] = length - 14.0;
    sheet.times = duration.map(|duration| {
        let mut times = sheet.distances.clone();
        times[6] = duration - 14.0;
        times
    });
    sheet
}

/// One stop, 10 out and 10 home, and a rest of so long from 15 to 20.
pub fn rested(marks: u32, due: f64, rest: f64, home_due: f64) -> Sheet {
    let row = |marks, due| Row { marks, due, ..Row::default() };
    let vehicle = Vehicle { id: 7, marks, earliest: 15.0, latest: 20.0, ..Vehicle::default() };
    Sheet {
        method: SAVINGS,
        rows: vec![row(DEPOT | WINDOW, home_due), row(WINDOW, due)],
        vehicles: vec![Vehicle { rest_duration: rest, ..vehicle }],
        distances: vec![0.0, 10.0, 10.0, 0.0],
        times: None,
    }
}

/// Two depots, of vehicles 6 and 7, and a stop at 10 and 600 from them.
pub fn between() -> Sheet {
    let vehicle = |id, depot| Vehicle { id, depot, ..Vehicle::default() };
    let row = |marks| Row { marks, ..Row::default() };
    Sheet {
        method: SAVINGS,
        rows: vec![row(DEPOT), row(DEPOT), row(0)],
        vehicles: vec![vehicle(6, 0), vehicle(7, 1)],
        distances: vec![0.0, 0.0, 10.0, 0.0, 0.0, 600.0, 10.0, 600.0, 0.0],
        times: None,
    }
}

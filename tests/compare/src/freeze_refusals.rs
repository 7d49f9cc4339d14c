//! The frozen sheets with the refusals of the harness, every field's damages among them.
//!
//! A record has the sheet's length and the plan's as little-endian u32, then the sheet. Its line is
//! the number of the refusal, 0 for an accepted sheet.

use crate::damage::{Base, Case, Values};
use crate::freeze::Kept;
use crate::generate::{sheet_of, tiny};
use crate::random::Random;
use crate::refusal::{refusal, METHODS, MOST_FIGURE, MOST_ROWS, OFFERED};
use crate::sheet::{Row, Sheet, Vehicle, DEPOT};

const COUNT: usize = 1000;

pub fn sample(seed: u64) -> Vec<Kept> {
    let kept = |Case { sheet, plan_len, .. }: &Case| {
        let number = refusal(sheet, *plan_len);
        let [sheet_len, plan_len] = [sheet.len(), *plan_len].map(|len| (len as u32).to_le_bytes());
        let asked = [&sheet_len[..], &plan_len, sheet].concat();
        Kept { number: number as usize, asked, line: format!("{number}\n") }
    };
    cases(seed).iter().map(kept).collect()
}

/// Every damage of one small sheet, fewer of two others, one long sheet, then tiny ones and damaged
/// ones until there are `COUNT`.
fn cases(seed: u64) -> Vec<Case> {
    let mut random = Random::new(seed);
    let (all, few) = (Values::all_marks(), Values::few());
    let mut cases = Base::new(&marked(0.5, MOST_FIGURE)).all_damages(&all);
    cases.extend(Base::new(&marked(0.0, 0.0)).record_damages(&few));
    cases.extend(Base::new(&plain()).all_damages(&few));
    cases.retain(recordable);
    let long = Sheet { times: None, ..sheet_of(&mut random, MOST_ROWS, 1) };
    let sheets = [marked(0.5, MOST_FIGURE), marked(0.0, 0.0), plain(), long];
    cases.extend(sheets.iter().chain(&corners()).map(|sheet| Base::new(sheet).case));
    let tiny: Vec<Sheet> = tiny().into_iter().filter(|sheet| sheet.rows.len() < 3).collect();
    while cases.len() < COUNT {
        let (rows, vehicles) = (random.below(3), random.below(3));
        let case = match random.below(2) {
            0 => Base::new(&tiny[random.below(tiny.len())]).case,
            _ => Base::new(&sheet_of(&mut random, rows, vehicles)).damaged(&all, &mut random),
        };
        cases.extend(Some(case).filter(recordable));
    }
    cases
}

/// Whether the plan's length fits its field in a record.
fn recordable(case: &Case) -> bool {
    u32::try_from(case.plan_len).is_ok()
}

/// One row and one vehicle with every mark, the window and the rest from `early` to `late`.
fn marked(early: f64, late: f64) -> Sheet {
    let row = Row {
        x: 1,
        y: -1,
        demand: 1,
        marks: 7,
        service: 1.0,
        ready: early,
        due: late,
        penalty: 1.0,
    };
    let vehicle = Vehicle {
        id: 7,
        depot: 0,
        capacity: 1,
        marks: 15,
        cost_per_distance: 1.0,
        fixed_cost: 1.0,
        max_distance: 1.0,
        max_duration: 1.0,
        earliest: early,
        latest: late,
        rest_duration: 1.0,
    };
    let (rows, vehicles) = (vec![row], vec![vehicle]);
    Sheet { method: OFFERED[0], rows, vehicles, distances: vec![1.0], times: None }
}

/// One row and one vehicle without a mark, all zeros, and a time table.
fn plain() -> Sheet {
    Sheet {
        rows: vec![Row::default()],
        vehicles: vec![Vehicle::default()],
        times: Some(vec![0.0]),
        ..marked(0.0, 0.0)
    }
}

/// Ids that repeat or differ in one bit, no vehicle at all, a depot mark that does not count, two
/// faults in one sheet.
fn corners() -> Vec<Sheet> {
    let ids = [[0, 0, 1], [0, 1, 0], [0, 1, 1], [0, 1 << 8, 1 << 16], [0, 1, 1 << 31]];
    let with_ids = |ids: [u32; 3]| Sheet {
        vehicles: ids.map(|id| Vehicle { id, ..Vehicle::default() }).into(),
        ..plain()
    };
    let without = |&method: &u8| Sheet { method, vehicles: vec![], ..plain() };
    let elsewhere = Vehicle { depot: 1, ..Vehicle::default() };
    let marks = [DEPOT, 0, DEPOT];
    let stray = Sheet {
        rows: marks.map(|marks| Row { marks, ..Row::default() }).into(),
        vehicles: vec![elsewhere.clone()],
        distances: vec![0.0; 9],
        times: None,
        ..plain()
    };
    let not_a_number = Sheet { distances: vec![f64::NAN], ..plain() };
    let negative = Row { demand: -1, ..Row::default() };
    let matrix_and_row = Sheet { rows: vec![negative], ..not_a_number.clone() };
    let matrix_and_vehicle = Sheet { vehicles: vec![elsewhere], ..not_a_number };
    let others = [stray, matrix_and_row, matrix_and_vehicle];
    ids.map(with_ids).into_iter().chain(METHODS.iter().map(without)).chain(others).collect()
}

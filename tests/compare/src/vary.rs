//! Small changes of a sheet that leave it accepted, or nearly always so.

use crate::random::Random;
use crate::refusal::MOST_VEHICLES;
use crate::sheet::{Sheet, Vehicle};
use crate::sheet::{DEPOT, HOME, MAX_DISTANCE, MAX_DURATION, PENALTY, REST, WINDOW};

/// One change, of any of the sheet's parts.
pub fn vary(sheet: &mut Sheet, random: &mut Random) {
    match random.below(16) {
        0..5 => vary_leg(sheet, random),
        5 => vary_legs(sheet, random),
        6 => swap_legs(sheet, random),
        7 => swap_rows(sheet, random),
        8..11 => vary_row(sheet, random),
        11..14 => vary_vehicle(sheet, random),
        14 => vary_fleet(sheet, random),
        _ => vary_depots(sheet, random),
    }
}

/// A number of any size, or near to the one that it takes the place of.
fn number(random: &mut Random, had: f64) -> f64 {
    match random.below(6) {
        0 => 0.0,
        1 => random.below(10) as f64,
        2 => random.below(1000) as f64,
        3 => had * (0.5 + random.unit()),
        4 => had + 1.0,
        _ => 1e5 * random.unit(),
    }
    .min(1e9)
}

fn table<'a>(sheet: &'a mut Sheet, random: &mut Random) -> &'a mut Vec<f64> {
    match &mut sheet.times {
        Some(times) if random.one_in(3) => times,
        _ => &mut sheet.distances,
    }
}

/// One leg: a new number, or another leg's.
fn vary_leg(sheet: &mut Sheet, random: &mut Random) {
    let legs = table(sheet, random);
    let (leg, other) = (random.below(legs.len()), random.below(legs.len()));
    legs[leg] = if random.one_in(3) { legs[other] } else { number(random, legs[leg]) };
}

/// All legs out of a row, or into it.
fn vary_legs(sheet: &mut Sheet, random: &mut Random) {
    let (rows, out) = (sheet.rows.len(), random.one_in(2));
    let (row, kind) = (random.below(rows), random.below(3));
    let legs = table(sheet, random);
    let one = number(random, legs[row]);
    for other in 0..rows {
        let leg = if out { row * rows + other } else { other * rows + row };
        legs[leg] = match kind {
            0 => one,
            1 => number(random, legs[leg]),
            _ => (2 * rows - other) as f64,
        };
    }
}

fn swap_legs(sheet: &mut Sheet, random: &mut Random) {
    let legs = table(sheet, random);
    let (one, other) = (random.below(legs.len()), random.below(legs.len()));
    legs.swap(one, other);
}

/// Two stops with all their legs, so that they are met in another order.
fn swap_rows(sheet: &mut Sheet, random: &mut Random) {
    let (rows, depots) = (sheet.rows.len(), sheet.depots());
    if depots == rows {
        return;
    }
    let (one, other) = (depots + random.below(rows - depots), depots + random.below(rows - depots));
    sheet.rows.swap(one, other);
    for legs in [Some(&mut sheet.distances), sheet.times.as_mut()].into_iter().flatten() {
        (0..rows).for_each(|k| legs.swap(one * rows + k, other * rows + k));
        (0..rows).for_each(|k| legs.swap(k * rows + one, k * rows + other));
    }
}

fn vary_row(sheet: &mut Sheet, random: &mut Random) {
    let from = random.below(sheet.rows.len());
    let row = random.below(sheet.rows.len());
    let kind = random.below(7);
    let had = sheet.rows[from].clone();
    let row = &mut sheet.rows[row];
    match kind {
        0 => row.demand = random.pick(&[0, 1, 1, 2, 5, 100, 1_000_000]),
        1 => (row.x, row.y) = (random.below(1000) as i32, random.below(1000) as i32),
        2 => (row.x, row.y) = (had.x, had.y),
        3 => row.service = number(random, row.service),
        4 => row.marks ^= WINDOW,
        5 => row.marks ^= PENALTY,
        _ => row.marks |= WINDOW,
    }
    if row.marks & WINDOW == 0 {
        (row.ready, row.due) = (0.0, 0.0);
    } else if kind >= 4 {
        let (one, other) = (number(random, row.ready), number(random, row.due));
        (row.ready, row.due) = (one.min(other), one.max(other));
    }
    if row.marks & PENALTY == 0 {
        row.penalty = 0.0;
    } else if kind == 5 {
        row.penalty = random.pick(&[0.0, 0.001, 1.0, 1000.0]);
    }
}

fn vary_vehicle(sheet: &mut Sheet, random: &mut Random) {
    if sheet.vehicles.is_empty() {
        return;
    }
    let vehicle = random.below(sheet.vehicles.len());
    let vehicle = &mut sheet.vehicles[vehicle];
    match random.below(7) {
        0 => vehicle.capacity = random.pick(&[0, 1, 5, 20, 100, i32::MAX]),
        1 => vehicle.capacity = vehicle.capacity.saturating_add(1),
        2 => vehicle.capacity -= i32::from(vehicle.capacity > 0),
        3 => vehicle.fixed_cost = number(random, vehicle.fixed_cost),
        4 => vehicle.marks ^= random.pick(&[MAX_DISTANCE, MAX_DURATION, REST]),
        5 => vehicle.rest_duration = number(random, vehicle.rest_duration),
        _ => vehicle.earliest = number(random, vehicle.earliest),
    }
    keep_to_marks(vehicle);
}

/// Fields that are marked and zero are made wide, those not marked zero.
fn keep_to_marks(vehicle: &mut Vehicle) {
    let set = |mark, had: f64| match (vehicle.marks & mark, had) {
        (0, _) => 0.0,
        (_, 0.0) => 1e9,
        (_, had) => had,
    };
    vehicle.max_distance = set(MAX_DISTANCE, vehicle.max_distance);
    vehicle.max_duration = set(MAX_DURATION, vehicle.max_duration);
    vehicle.latest = set(REST, vehicle.latest).max(vehicle.earliest);
    if vehicle.marks & REST == 0 {
        vehicle.marks &= !HOME;
        (vehicle.earliest, vehicle.latest, vehicle.rest_duration) = (0.0, 0.0, 0.0);
    }
}

/// A vehicle more, or less, or at another depot.
fn vary_fleet(sheet: &mut Sheet, random: &mut Random) {
    let (count, depots) = (sheet.vehicles.len(), sheet.depots());
    let depot = random.below(depots) as u32;
    match random.below(3) {
        0 if count > 0 && count < MOST_VEHICLES => {
            let id = sheet.vehicles.iter().map(|vehicle| vehicle.id).max().unwrap_or(0) + 1;
            let vehicle = sheet.vehicles[random.below(count)].clone();
            sheet.vehicles.push(Vehicle { id, depot, ..vehicle });
        }
        1 if count > 1 => _ = sheet.vehicles.remove(random.below(count)),
        _ if count > 0 => sheet.vehicles[random.below(count)].depot = depot,
        _ => (),
    }
}

/// A depot more, or less.
fn vary_depots(sheet: &mut Sheet, random: &mut Random) {
    let depots = sheet.depots();
    if random.one_in(2) && depots < sheet.rows.len() {
        sheet.rows[depots].marks |= DEPOT;
    } else if depots > 1 {
        sheet.rows[depots - 1].marks &= !DEPOT;
    }
    let depots = sheet.depots() as u32;
    sheet.vehicles.iter_mut().for_each(|vehicle| vehicle.depot %= depots);
}

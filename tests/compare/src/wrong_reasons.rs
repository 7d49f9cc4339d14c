//! Wrong readings of a reason (document 02, request Six), each of which some plan has to tell from the
//! right one. Those of a plan in are in wrong_copies.rs.

use crate::reasoning::{reason, reason_by, tried_last, vehicles_of, NO_REST_PLACE, OVER_CAPACITY};
use crate::reasoning::{OVER_DISTANCE, OVER_DURATION, WINDOW_MISSED};
use crate::sheet::{Row, Sheet, Vehicle, HOME, INSERTION, MAX_DURATION, NEAREST, NN_TW, PENALTY};
use crate::sheet::{REST, SAVINGS, WINDOW};

/// Rules switched on in another order.
const ORDERS: [(&str, [u16; 5]); 3] = [
    (
        "the duration asked before the distance",
        [OVER_CAPACITY, WINDOW_MISSED, NO_REST_PLACE, OVER_DURATION, OVER_DISTANCE],
    ),
    (
        "a window missed by the rested walk",
        [OVER_CAPACITY, NO_REST_PLACE, WINDOW_MISSED, OVER_DISTANCE, OVER_DURATION],
    ),
    (
        "a place for the rest within the limits",
        [OVER_CAPACITY, WINDOW_MISSED, OVER_DISTANCE, OVER_DURATION, NO_REST_PLACE],
    ),
];

/// Makes of a sheet and a stop the sheet whose reason is told.
pub type Misread = fn(&mut Sheet, usize);

const SHEETS: [(&str, Misread); 23] = [
    ("a soft window missed", |it, stop| it.rows[stop].marks &= !PENALTY),
    ("no rest at home", |it, _| each(it, |vehicle| vehicle.marks &= !HOME)),
    ("a rest at home of every vehicle", |it, _| {
        let rests = it.vehicles.iter_mut().filter(|vehicle| vehicle.marks & REST != 0);
        rests.for_each(|vehicle| vehicle.marks |= HOME);
    }),
    ("the depot's due not asked", |it, _| {
        gates(it).iter_mut().for_each(|row| row.marks &= !WINDOW)
    }),
    ("a load at capacity too much", |it, _| each(it, |vehicle| vehicle.capacity -= 1)),
    ("an arrival at the due too late", |it, stop| sooner(&mut it.rows[stop])),
    ("no rest from latest on", |it, _| each(it, |vehicle| step_down(&mut vehicle.latest))),
    ("a distance at the maximum too far", |it, _| {
        each(it, |vehicle| step_down(&mut vehicle.max_distance));
    }),
    ("a duration at the maximum too long", |it, _| {
        each(it, |vehicle| step_down(&mut vehicle.max_duration));
    }),
    ("home at the depot's due too late", |it, _| gates(it).iter_mut().for_each(sooner)),
    ("the depot tried first", first_depot),
    ("the lower of depots as far", lower_depot),
    ("the farthest depot by time", |it, stop| {
        let last = of_vehicles(it).max_by(|one, other| {
            let [one, other] = [one, other].map(|depot| time(it, *depot, stop));
            one.total_cmp(&other)
        });
        keep(it, last);
    }),
    ("the first vehicle of the sheet", |it, stop| {
        it.vehicles[0].depot = tried_last(it, stop).expect("a vehicle has a depot") as u32;
    }),
    ("the last vehicle of the depot", |it, _| it.vehicles.reverse()),
    ("the first vehicle alone", |it, stop| {
        let depot = tried_last(it, stop).expect("a vehicle has a depot");
        let first = vehicles_of(it, depot).next().map(|vehicle| vehicle.id);
        it.vehicles.retain(|vehicle| Some(vehicle.id) == first);
    }),
    ("other vehicles of any depot", |it, stop| {
        let depot = tried_last(it, stop).expect("a vehicle has a depot") as u32;
        it.vehicles.sort_by_key(|vehicle| vehicle.depot != depot);
        each(it, |vehicle| vehicle.depot = depot);
    }),
    ("other vehicles, whatever the method", |it, _| {
        if it.method == SAVINGS {
            each(it, |vehicle| vehicle.capacity = i32::MAX);
        }
        if it.method != NEAREST {
            it.method = NN_TW;
        }
    }),
    ("savings over capacity", |it, _| {
        if it.method == SAVINGS {
            it.method = INSERTION;
        }
    }),
    ("plain nearest neighbour with windows", |it, _| {
        if it.method == NEAREST {
            it.method = NN_TW;
        }
    }),
    ("plain nearest neighbour with waiting", |it, stop| {
        let depot = tried_last(it, stop).expect("a vehicle has a depot");
        let rests = vehicles_of(it, depot).any(|vehicle| vehicle.marks & REST != 0);
        if it.method == NEAREST && !rests {
            it.rows[stop].service += (it.rows[stop].ready - time(it, depot, stop)).max(0.0);
        }
    }),
    ("plain nearest neighbour with the due", |it, stop| {
        let depot = tried_last(it, stop).expect("a vehicle has a depot");
        let Row { marks, due, .. } = it.rows[depot];
        if it.method == NEAREST && marks & WINDOW != 0 {
            each(it, |vehicle| {
                let own = vehicle.marks & MAX_DURATION != 0;
                vehicle.max_duration = if own { vehicle.max_duration.min(due) } else { due };
                vehicle.marks |= MAX_DURATION;
            });
        }
    }),
    ("plain nearest neighbour without its rests", |it, _| {
        if it.method == NEAREST {
            each(it, |vehicle| vehicle.marks &= !(REST | HOME));
        }
    }),
];

pub const WRONG: usize = ORDERS.len() + SHEETS.len();

pub fn names() -> impl Iterator<Item = &'static str> {
    ORDERS.iter().map(|(name, _)| *name).chain(SHEETS.iter().map(|(name, _)| *name))
}

/// What a reading gives for a stop of a sheet with a vehicle.
pub fn wrong_reason(reading: usize, sheet: &Sheet, stop: usize) -> u16 {
    match ORDERS.get(reading) {
        Some((_, rules)) => reason_by(rules, sheet, stop),
        None => misread_reason(sheet, stop, SHEETS[reading - ORDERS.len()].1),
    }
}

pub fn misread_reason(sheet: &Sheet, stop: usize, misread: Misread) -> u16 {
    let mut sheet = sheet.clone();
    misread(&mut sheet, stop);
    reason(&sheet, stop)
}

/// The nearest depot, of equals the lower.
pub fn first_depot(sheet: &mut Sheet, stop: usize) {
    let first = of_vehicles(sheet).min_by(|one, other| {
        let [one, other] = [one, other].map(|depot| leg(sheet, *depot, stop));
        one.total_cmp(&other)
    });
    keep(sheet, first);
}

pub fn lower_depot(sheet: &mut Sheet, stop: usize) {
    let last = tried_last(sheet, stop).expect("a vehicle has a depot");
    let far = leg(sheet, last, stop);
    let lower = of_vehicles(sheet).find(|&depot| leg(sheet, depot, stop) == far);
    keep(sheet, lower);
}

fn each(sheet: &mut Sheet, change: impl Fn(&mut Vehicle)) {
    sheet.vehicles.iter_mut().for_each(change);
}

/// The rows of the depots.
fn gates(sheet: &mut Sheet) -> &mut [Row] {
    let depots = sheet.depots();
    &mut sheet.rows[..depots]
}

pub fn step_down(x: &mut f64) {
    *x = x.next_down();
}

/// Closes a window one step sooner.
pub fn sooner(row: &mut Row) {
    step_down(&mut row.due);
    row.ready = row.ready.min(row.due);
}

fn leg(sheet: &Sheet, depot: usize, stop: usize) -> f64 {
    sheet.distances[depot * sheet.rows.len() + stop]
}

fn time(sheet: &Sheet, depot: usize, stop: usize) -> f64 {
    sheet.times.as_ref().unwrap_or(&sheet.distances)[depot * sheet.rows.len() + stop]
}

/// The depots that have a vehicle.
fn of_vehicles(sheet: &Sheet) -> impl Iterator<Item = usize> + '_ {
    (0..sheet.depots()).filter(|&depot| vehicles_of(sheet, depot).next().is_some())
}

/// Leaves the vehicles of one depot.
fn keep(sheet: &mut Sheet, depot: Option<usize>) {
    sheet.vehicles.retain(|vehicle| Some(vehicle.depot as usize) == depot);
}

//! The harness's own reasons (document 02, request Six): the Rust plans a stop's lone round with its
//! rules switched on one after another, and the first that has the stop set aside is the reason.

use u_routing::models::Solution;

use crate::plan::{encode, put_reason, reason_of};
use crate::reference::Problem;
use crate::sheet::{Row, Sheet, Vehicle, DEPOT, HOME, MAX_DISTANCE, MAX_DURATION, NEAREST, NN_TW};
use crate::sheet::{REST, WINDOW};

pub const NO_VEHICLE: u16 = 1;
pub const OVER_CAPACITY: u16 = 2;
pub const WINDOW_MISSED: u16 = 3;
pub const NO_REST_PLACE: u16 = 4;
pub const OVER_DISTANCE: u16 = 5;
pub const OVER_DURATION: u16 = 6;
pub const USED_UP: u16 = 7;
pub const DROPPED: u16 = 8;

/// The rules by their reasons, in the order in which they are switched on.
pub const RULES: [u16; 5] =
    [OVER_CAPACITY, WINDOW_MISSED, NO_REST_PLACE, OVER_DISTANCE, OVER_DURATION];

/// One vehicle, its depot and one stop, as a sheet of their own.
pub struct Lone(pub Sheet);

impl Lone {
    pub fn new(sheet: &Sheet, vehicle: &Vehicle, stop: usize) -> Lone {
        let ends = [vehicle.depot as usize, stop];
        let legs = |all: &Vec<f64>| -> Vec<f64> {
            ends.iter().flat_map(|from| ends.map(|to| all[from * sheet.rows.len() + to])).collect()
        };
        let [depot, stop] = ends.map(|row| sheet.rows[row].clone());
        // Of a vehicle with a rest plain nearest neighbour asks what the other does, and without
        // it would not ask for windows.
        let rests = sheet.method == NEAREST && vehicle.marks & REST != 0;
        Lone(Sheet {
            method: if rests { NN_TW } else { sheet.method },
            rows: vec![depot, Row { marks: stop.marks & !DEPOT, ..stop }],
            vehicles: vec![Vehicle { depot: 0, ..vehicle.clone() }],
            distances: legs(&sheet.distances),
            times: sheet.times.as_ref().map(legs),
        })
    }

    /// Whether the Rust makes the round with these rules alone.
    pub fn is_made(&self, on: &[u16]) -> bool {
        Problem::taken(&self.with(on)).solution().unassigned().is_empty()
    }

    /// The same sheet with these rules alone.
    pub fn with(&self, on: &[u16]) -> Sheet {
        let mut sheet = self.0.clone();
        let vehicle = &mut sheet.vehicles[0];
        for off in RULES.iter().filter(|rule| !on.contains(rule)) {
            match *off {
                OVER_CAPACITY => vehicle.capacity = i32::MAX,
                WINDOW_MISSED => sheet.rows[1].marks &= !WINDOW,
                NO_REST_PLACE => vehicle.marks &= !(REST | HOME),
                OVER_DISTANCE => vehicle.marks &= !MAX_DISTANCE,
                _ => {
                    vehicle.marks &= !MAX_DURATION;
                    sheet.rows[0].marks &= !WINDOW;
                }
            }
        }
        sheet
    }

    /// The first of the rules, switched on in this order, that turns the round down.
    pub fn first_of(&self, rules: &[u16]) -> Option<u16> {
        let turns_down = |&count: &usize| !self.is_made(&rules[..count]);
        (1..=rules.len()).find(turns_down).map(|count| rules[count - 1])
    }
}

/// The depot that a stop is offered to last: of those with a vehicle the farthest, of equals the last.
pub fn tried_last(sheet: &Sheet, stop: usize) -> Option<usize> {
    let leg = |depot: usize| sheet.distances[depot * sheet.rows.len() + stop];
    let has_vehicle = |depot: &usize| vehicles_of(sheet, *depot).next().is_some();
    (0..sheet.depots()).filter(has_vehicle).max_by(|one, other| leg(*one).total_cmp(&leg(*other)))
}

pub fn vehicles_of(sheet: &Sheet, depot: usize) -> impl Iterator<Item = &Vehicle> {
    sheet.vehicles.iter().filter(move |vehicle| vehicle.depot as usize == depot)
}

/// Why a stop is set aside, if it is.
pub fn reason(sheet: &Sheet, stop: usize) -> u16 {
    reason_by(&RULES, sheet, stop)
}

/// The same by these rules in their order.
pub fn reason_by(rules: &[u16], sheet: &Sheet, stop: usize) -> u16 {
    let Some(depot) = tried_last(sheet, stop) else { return NO_VEHICLE };
    let mut lone = vehicles_of(sheet, depot).map(|vehicle| Lone::new(sheet, vehicle, stop));
    let first = lone.next().expect("a depot with a vehicle");
    let is_nearest = matches!(sheet.method, NEAREST | NN_TW);
    if is_nearest && lone.any(|other| other.is_made(rules)) {
        return USED_UP;
    }
    first.first_of(rules).unwrap_or(USED_UP)
}

/// A sheet's plan.
pub fn reasoned(sheet: &Sheet, solution: &Solution) -> Vec<u8> {
    with_reasons(sheet.rows.len(), solution, |stop| reason(sheet, stop))
}

/// A plan out of the limiter: one reason for all that it drops, and copies for the stops that the plan
/// in has set aside.
pub fn copied(plan_in: &[u8], rows: usize, aside: &[usize], solution: &Solution) -> Vec<u8> {
    with_reasons(rows, solution, |stop| match aside.contains(&stop) {
        true => reason_of(plan_in, rows, stop),
        false => DROPPED,
    })
}

fn with_reasons(rows: usize, solution: &Solution, why: impl Fn(usize) -> u16) -> Vec<u8> {
    let mut plan = encode(rows, solution);
    solution.unassigned().iter().for_each(|&stop| put_reason(&mut plan, rows, stop, why(stop)));
    plan
}

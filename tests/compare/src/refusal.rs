//! What is turned back (document 01, "Turned back"): the first line of its table that holds.

use crate::plan::{chains, plan_len, round_count, Chains};
use crate::sheet::{Header, Row, Sheet, Vehicle, INSERTION, SAVINGS, SWEEP};
use crate::sheet::{HEADER, HOME, MAX_DISTANCE, MAX_DURATION, PENALTY, REST, WINDOW};

pub const MOST_ROWS: usize = 101;
pub const MOST_VEHICLES: usize = 16;
/// The methods of document 01, and those that the planner offers today: it refuses the others as 3.
pub const METHODS: &[u8] = &[0, 1, 2, 3, 4];
pub const OFFERED: &[u8] = &[0, 1, 2, 3, 4];
const MOST_ROW_MARKS: u32 = 7;
const MOST_VEHICLE_MARKS: u32 = 15;
pub const MOST_COORDINATE: i32 = 1_000_000;
pub const MOST_DEMAND: i32 = 1_000_000;
/// Distances, times, service, windows, rests and fixed cost.
pub const MOST_FIGURE: f64 = 1e9;
pub const MOST_PENALTY: f64 = 1e6;
pub const MOST_MAXIMUM: f64 = 1e12;
pub const LEAST_RATE: f64 = 0.001;
pub const MOST_RATE: f64 = 1e6;

/// The planner's answer to a sheet and a plan buffer of `plan_len` bytes, if it is a refusal;
/// 0 for an accepted sheet.
pub fn refusal(sheet: &[u8], plan_len: usize) -> u32 {
    accepted(OFFERED, sheet, &[plan_len]).err().unwrap_or(0)
}

/// Refusals 1 to 8 where these methods are offered, for plan buffers of these lengths.
pub fn accepted(methods: &[u8], bytes: &[u8], plan_lens: &[usize]) -> Result<Sheet, u32> {
    accepted_with(methods, bytes, |rows| plan_lens.iter().all(|&len| len == plan_len(rows)))
}

/// The same where all else that is lent may have other lengths, told by the number of rows.
fn accepted_with(methods: &[u8], bytes: &[u8], fits: impl Fn(usize) -> bool) -> Result<Sheet, u32> {
    if bytes.len() < HEADER {
        return Err(1);
    }
    let header = Header::of(bytes);
    if header.time_table > 1 || bytes[6..HEADER].iter().any(|&spare| spare != 0) {
        return Err(1);
    }
    if header.rows > MOST_ROWS || header.vehicles > MOST_VEHICLES {
        return Err(2);
    }
    if !methods.contains(&header.method) {
        return Err(3);
    }
    if bytes.len() != header.sheet_len() || !fits(header.rows) {
        return Err(4);
    }
    let sheet = Sheet::decode(bytes);
    if !sheet.rows.iter().all(row_in_range) {
        return Err(5);
    }
    let mut entries = sheet.distances.iter().chain(sheet.times.iter().flatten());
    if !entries.all(|&entry| within(entry, MOST_FIGURE)) {
        return Err(6);
    }
    if !(0..sheet.vehicles.len()).all(|k| vehicle_in_range(&sheet, k)) {
        return Err(7);
    }
    if sheet.vehicles.is_empty() && needs_vehicle(sheet.method) {
        return Err(8);
    }
    Ok(sheet)
}

/// Whether a method asks for a vehicle: it makes all rounds with the depot's first.
pub fn needs_vehicle(method: u8) -> bool {
    matches!(method, SAVINGS | INSERTION | SWEEP)
}

/// Whether a call can be answered so: 8 is told of methods that ask for a vehicle alone.
pub fn can_occur(number: usize) -> bool {
    number != 8 || OFFERED.iter().any(|&method| needs_vehicle(method))
}

/// Refusals 1 to 10, for a plan out of `plan_out_len` bytes. The limiter takes a sheet of any method.
pub fn limiter_accepted(
    bytes: &[u8],
    plan_in: &[u8],
    plan_out_len: usize,
) -> Result<(Sheet, Chains), u32> {
    let sheet = accepted(METHODS, bytes, &[plan_in.len(), plan_out_len])?;
    if sheet.depots() > 1 {
        return Err(9);
    }
    let chains = chains(plan_in, &sheet).ok_or(10u32)?;
    Ok((sheet, chains))
}

/// Refusals 1 to 8 and 10, and then one of its own, of a sheet of any method and a plan that something
/// is asked of. The buffer's length fits the plan's number of rounds, or does not.
pub fn plan_accepted(
    bytes: &[u8],
    plan: &[u8],
    fits: impl Fn(usize) -> bool,
    own: Option<u32>,
) -> Result<(Sheet, Chains), u32> {
    let fits = |rows| plan.len() == plan_len(rows) && fits(round_count(plan));
    let sheet = accepted_with(METHODS, bytes, fits)?;
    let chains = chains(plan, &sheet).ok_or(10u32)?;
    own.map_or(Ok((sheet, chains)), Err)
}

/// From 0 to `most`. NaN fails the comparison; the sign keeps out what is below, -0.0 too.
fn within(x: f64, most: f64) -> bool {
    x.is_sign_positive() && x <= most
}

fn zero_bits(fields: &[f64]) -> bool {
    fields.iter().all(|field| field.to_bits() == 0)
}

fn row_in_range(row: &Row) -> bool {
    let coordinates = -MOST_COORDINATE..=MOST_COORDINATE;
    let window = if row.marks & WINDOW != 0 {
        within(row.ready, MOST_FIGURE) && within(row.due, MOST_FIGURE) && row.ready <= row.due
    } else {
        zero_bits(&[row.ready, row.due])
    };
    row.marks <= MOST_ROW_MARKS
        && coordinates.contains(&row.x)
        && coordinates.contains(&row.y)
        && (0..=MOST_DEMAND).contains(&row.demand)
        && within(row.service, MOST_FIGURE)
        && window
        && maybe(row.marks & PENALTY, row.penalty, MOST_PENALTY)
}

/// A field within its range if marked, else all zero bits.
fn maybe(mark: u32, field: f64, most: f64) -> bool {
    if mark != 0 {
        within(field, most)
    } else {
        zero_bits(&[field])
    }
}

fn vehicle_in_range(sheet: &Sheet, k: usize) -> bool {
    let vehicle = &sheet.vehicles[k];
    let rate = vehicle.cost_per_distance;
    vehicle.marks <= MOST_VEHICLE_MARKS
        && (vehicle.depot as usize) < sheet.depots()
        && vehicle.capacity >= 0
        && (rate.to_bits() == 0 || (LEAST_RATE..=MOST_RATE).contains(&rate))
        && within(vehicle.fixed_cost, MOST_FIGURE)
        && maybe(vehicle.marks & MAX_DISTANCE, vehicle.max_distance, MOST_MAXIMUM)
        && maybe(vehicle.marks & MAX_DURATION, vehicle.max_duration, MOST_MAXIMUM)
        && rest_in_range(vehicle)
        && sheet.vehicles[..k].iter().all(|other| other.id != vehicle.id)
}

fn rest_in_range(vehicle: &Vehicle) -> bool {
    let fields = [vehicle.earliest, vehicle.latest, vehicle.rest_duration];
    if vehicle.marks & REST == 0 {
        return vehicle.marks & HOME == 0 && zero_bits(&fields);
    }
    fields.iter().all(|&x| within(x, MOST_FIGURE)) && vehicle.earliest <= vehicle.latest
}

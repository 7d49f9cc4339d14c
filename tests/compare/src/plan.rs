//! The plan's bytes: written from the Rust's figures, and their chains read back (document 01,
//! "The plan"). The reason of a stop set aside (document 02, request Six) is put in and left out.

use u_routing::models::{Route, Solution};

use crate::sheet::{field, Sheet};

const HEADER: usize = 16;
const ROUND: usize = 56;
const STOP: usize = 24;
/// The greatest reason.
pub const MOST_REASON: u16 = 8;

/// Where a stop's record starts in the plan of a sheet of `rows` rows, and where a round's does.
pub fn stop_at(rows: usize, row: usize) -> usize {
    round_at(rows) + STOP * row
}

/// Where its reason stands.
pub fn reason_at(rows: usize, row: usize) -> usize {
    stop_at(rows, row) + 2
}

pub fn round_at(round: usize) -> usize {
    HEADER + ROUND * round
}

pub fn plan_len(rows: usize) -> usize {
    stop_at(rows, rows)
}

/// The rounds, each its vehicle's id and its stops in order, and the stops set aside.
#[derive(Clone)]
pub struct Chains {
    pub rounds: Vec<(u32, Vec<usize>)>,
    pub aside: Vec<usize>,
}

/// A plan without reasons.
pub fn encode(rows: usize, solution: &Solution) -> Vec<u8> {
    let mut plan = vec![0; plan_len(rows)];
    let aside = solution.unassigned();
    put(&mut plan, 0, (solution.num_routes() as u16).to_le_bytes());
    put(&mut plan, 2, link(aside.first()));
    put(&mut plan, 4, (rows as u16).to_le_bytes());
    put(&mut plan, 8, solution.total_cost().to_le_bytes());
    for (k, route) in solution.routes().iter().enumerate() {
        encode_route(&mut plan, rows, k, route);
    }
    for (k, &stop) in aside.iter().enumerate() {
        put(&mut plan, stop_at(rows, stop), link(aside.get(k + 1)));
    }
    plan
}

/// A plan of round count, ids and links alone.
pub fn encode_chains(rows: usize, chains: &Chains) -> Vec<u8> {
    let mut plan = vec![0; plan_len(rows)];
    put(&mut plan, 0, (chains.rounds.len() as u16).to_le_bytes());
    put_chain(&mut plan, rows, 2, &chains.aside);
    for (k, (id, stops)) in chains.rounds.iter().enumerate() {
        put(&mut plan, round_at(k), id.to_le_bytes());
        put_chain(&mut plan, rows, round_at(k) + 8, stops);
    }
    plan
}

/// The links of a chain whose first stands at `first`.
fn put_chain(plan: &mut [u8], rows: usize, first: usize, stops: &[usize]) {
    let mut at = first;
    for stop in stops {
        put(plan, at, link(Some(stop)));
        at = stop_at(rows, *stop);
    }
    put(plan, at, link(None));
}

fn encode_route(plan: &mut [u8], rows: usize, k: usize, route: &Route) {
    let at = round_at(k);
    let stops = route.customer_ids();
    let (place, start) = route.rest().map_or((0, 0.0), |(index, start)| (index + 1, start));
    put(plan, at, (route.vehicle_id() as u32).to_le_bytes());
    put(plan, at + 4, route.total_load().to_le_bytes());
    put(plan, at + 8, link(stops.first()));
    put(plan, at + 10, (place as u16).to_le_bytes());
    put(plan, at + 16, route.total_distance().to_le_bytes());
    put(plan, at + 24, route.total_duration().to_le_bytes());
    put(plan, at + 32, route.total_lateness().to_le_bytes());
    put(plan, at + 40, route.lateness_cost().to_le_bytes());
    put(plan, at + 48, start.to_le_bytes());
    for (k, visit) in route.visits().iter().enumerate() {
        let at = stop_at(rows, visit.customer_id);
        put(plan, at, link(stops.get(k + 1)));
        put(plan, at + 4, visit.load_after.to_le_bytes());
        put(plan, at + 8, visit.arrival_time.to_le_bytes());
        put(plan, at + 16, visit.departure_time.to_le_bytes());
    }
}

pub fn put_reason(plan: &mut [u8], rows: usize, stop: usize, reason: u16) {
    put(plan, reason_at(rows, stop), reason.to_le_bytes());
}

pub fn reason_of(plan: &[u8], rows: usize, stop: usize) -> u16 {
    u16::from_le_bytes(field(plan, reason_at(rows, stop)))
}

/// The reasons of all rows of a plan, those of depots and routed stops too.
pub fn reasons(plan: &[u8]) -> Vec<u16> {
    let rows = rows_of(plan);
    (0..rows).map(|row| reason_of(plan, rows, row)).collect()
}

/// The row whose reason a byte of a plan is of.
pub fn reason_place(plan: &[u8], at: usize) -> Option<usize> {
    let rows = rows_of(plan);
    (0..rows).find(|&row| (0..2).contains(&at.wrapping_sub(reason_at(rows, row))))
}

/// As many as there is room for.
fn rows_of(plan: &[u8]) -> usize {
    plan.len().saturating_sub(HEADER) / (ROUND + STOP)
}

/// The same plan without reasons, which the Rust has none of.
pub fn without_reasons(plan: &[u8]) -> Vec<u8> {
    let (rows, mut plan) = (rows_of(plan), plan.to_vec());
    (0..rows).for_each(|row| put_reason(&mut plan, rows, row, 0));
    plan
}

fn put<const N: usize>(plan: &mut [u8], at: usize, bytes: [u8; N]) {
    plan[at..at + N].copy_from_slice(&bytes);
}

/// The number of the next stop; 0 ends a chain.
fn link(stop: Option<&usize>) -> [u8; 2] {
    (stop.copied().unwrap_or(0) as u16).to_le_bytes()
}

/// The number of rounds that a plan of 2 bytes or more says it has.
pub fn round_count(plan: &[u8]) -> usize {
    u16::from_le_bytes(field(plan, 0)).into()
}

/// The chains of a plan of the right length for `sheet`. `None` for more rounds than rows, an
/// unknown id, a link to no stop, a stop not exactly once in all chains, or a reason above the greatest
/// of a stop set aside.
pub fn chains(plan: &[u8], sheet: &Sheet) -> Option<Chains> {
    let rows = sheet.rows.len();
    let count = round_count(plan);
    if count > rows {
        return None;
    }
    let mut left: Vec<bool> = (0..rows).map(|row| row >= sheet.depots()).collect();
    let mut rounds = Vec::new();
    for at in (0..count).map(round_at) {
        let id = u32::from_le_bytes(field(plan, at));
        if sheet.vehicles.iter().all(|vehicle| vehicle.id != id) {
            return None;
        }
        rounds.push((id, chain(plan, at + 8, &mut left)?));
    }
    let aside = chain(plan, 2, &mut left)?;
    let explained = |&stop: &usize| reason_of(plan, rows, stop) <= MOST_REASON;
    let is_plan = !left.contains(&true) && aside.iter().all(explained);
    is_plan.then_some(Chains { rounds, aside })
}

/// The stops of the chain whose first link stands at `first`, each struck off the stops left.
fn chain(plan: &[u8], first: usize, left: &mut [bool]) -> Option<Vec<usize>> {
    let mut stops = Vec::new();
    let mut at = first;
    loop {
        let stop = usize::from(u16::from_le_bytes(field(plan, at)));
        if stop == 0 {
            return Some(stops);
        }
        if !std::mem::take(left.get_mut(stop)?) {
            return None;
        }
        stops.push(stop);
        at = stop_at(left.len(), stop);
    }
}

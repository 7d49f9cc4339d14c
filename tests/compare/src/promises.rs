//! What every plan out of the limiter keeps, read from the bytes alone; only whether a round is
//! feasible is the Rust's to say.

use u_routing::home::evaluation::{route_feasible, RouteLimits};

use crate::plan::{chains, Chains};
use crate::reference::Problem;
use crate::sheet::{field, Sheet};

/// The cost of no round.
const NOTHING: u64 = 1 << 63;

/// What the plan out of an accepted call does not keep, if anything.
pub fn broken(
    sheet: &Sheet,
    problem: &Problem,
    before: &Chains,
    greatest: u32,
    plan_out: &[u8],
) -> Option<&'static str> {
    let Some(after) = chains(plan_out, sheet) else { return Some("a stop not once") };
    let count = before.rounds.len().min(greatest as usize);
    let cost = u64::from_le_bytes(field(plan_out, 8));
    let broken = [
        (after.rounds.len() != count, "a number of rounds"),
        (!after.aside.is_sorted(), "the order of the stops set aside"),
        (!before.aside.iter().all(|stop| after.aside.contains(stop)), "a stop set aside before"),
        (after.rounds.is_empty() != (cost == NOTHING), "the cost of no round"),
        (!grown(&before.rounds, &after.rounds), "a round that is none of the plan in"),
        (!after.rounds.iter().all(|round| stands(sheet, problem, before, round)), "a round"),
    ];
    broken.into_iter().find_map(|(broken, what)| broken.then_some(what))
}

/// Whether the rounds are, in order, some of those before with stops put between theirs. The first
/// that it can be is as good as any later.
fn grown(before: &[(u32, Vec<usize>)], after: &[(u32, Vec<usize>)]) -> bool {
    let mut left = before.iter();
    after.iter().all(|(id, stops)| {
        left.any(|(had_id, had)| {
            let mut stops = stops.iter();
            had_id == id && had.iter().all(|stop| stops.any(|other| other == stop))
        })
    })
}

/// As it was, or within capacity and feasible.
fn stands(sheet: &Sheet, problem: &Problem, before: &Chains, round: &(u32, Vec<usize>)) -> bool {
    if before.rounds.contains(round) {
        return true;
    }
    let (id, stops) = round;
    let vehicle = sheet.vehicles.iter().position(|vehicle| vehicle.id == *id);
    vehicle.is_some_and(|vehicle| {
        let load: i64 = stops.iter().map(|&stop| i64::from(sheet.rows[stop].demand)).sum();
        let limits = RouteLimits::of(&problem.vehicles[vehicle]);
        load <= sheet.vehicles[vehicle].capacity.into()
            && route_feasible(stops, 0, &problem.distances, &problem.customers, &limits)
    })
}

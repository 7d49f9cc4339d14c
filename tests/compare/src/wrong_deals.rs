//! Wrong readings of request Seven, each of which some call has to tell from the right one.

use std::cmp::Reverse;

use u_routing::models::Route;

use crate::dealing::{wholes, Crews};
use crate::plan::{round_at, round_count};
use crate::plan_answers::{Answer, Right};
use crate::plan_calls::{Asked, Call};
use crate::sheet::{field, Sheet};
use crate::walked::{begun, Walked};
use crate::wrong_walks::{walked_otherwise, WrongWalk};

#[derive(Clone, Copy, PartialEq)]
pub enum Wrong {
    OwnOrder,
    ShortestFirst,
    HigherRound,
    UnroundedOrder,
    HigherCrew,
    FewestRounds,
    UnroundedTotals,
    NarrowTotals,
    FromZero,
    EmptyNotDealt,
    EmptyOfNoTime,
    RoundedDown,
    Nearest,
    OneMore,
    Narrow,
    Distances,
    PlanFigures,
    Walk(WrongWalk),
    OneDepot,
    LengthOfRows,
    LengthLast,
    LongerTaken,
    CrewsFirst,
    CrewsBeforePlan,
    NoRoundTaken,
    NoCrewTaken,
    NineTaken,
    LowByte,
    Writes,
}

pub const WRONG: &[(Wrong, &str)] = &[
    (Wrong::OwnOrder, "rounds in the plan's own order"),
    (Wrong::ShortestFirst, "the shortest round first"),
    (Wrong::HigherRound, "the higher round first when equal"),
    (Wrong::UnroundedOrder, "rounds compared before rounding up"),
    (Wrong::HigherCrew, "the higher crew when equal"),
    (Wrong::FewestRounds, "to the crew with the fewest rounds"),
    (Wrong::UnroundedTotals, "totals summed before rounding up"),
    (Wrong::NarrowTotals, "totals of 32 bits"),
    (Wrong::FromZero, "crews from 0"),
    (Wrong::EmptyNotDealt, "an empty round not dealt"),
    (Wrong::EmptyOfNoTime, "an empty round of no time"),
    (Wrong::RoundedDown, "durations rounded down"),
    (Wrong::Nearest, "durations to the nearest"),
    (Wrong::OneMore, "one more than rounded down"),
    (Wrong::Narrow, "durations of 32 bits"),
    (Wrong::Distances, "distances for durations"),
    (Wrong::PlanFigures, "the plan's own durations"),
    (Wrong::Walk(WrongWalk::FirstVehicle), "all rounds of the first vehicle"),
    (Wrong::Walk(WrongWalk::FirstDepot), "all rounds from row 0"),
    (Wrong::Walk(WrongWalk::NoRest), "no rest"),
    (Wrong::Walk(WrongWalk::NoRestAtHome), "no rest at home"),
    (Wrong::Walk(WrongWalk::NoDue), "a rest at home past the depot's due"),
    (Wrong::OneDepot, "9 for several depots"),
    (Wrong::LengthOfRows, "a deal of `rows` bytes"),
    (Wrong::LengthLast, "the deal's length after sheet and plan"),
    (Wrong::LongerTaken, "a longer deal taken"),
    (Wrong::CrewsFirst, "14 before the sheet's refusals"),
    (Wrong::CrewsBeforePlan, "14 before 10"),
    (Wrong::NoRoundTaken, "no 14 where there is no round"),
    (Wrong::NoCrewTaken, "0 crews taken"),
    (Wrong::NineTaken, "9 crews taken"),
    (Wrong::LowByte, "crews counted in a byte"),
    (Wrong::Writes, "a refused call writes"),
];

/// A call that should be refused and is not, whatever is written.
const TAKEN: Answer = Ok(Vec::new());
/// What the harness says where the buffer of a refused call was changed (limits.rs).
const CHANGED: u32 = 99;

pub fn wrong_deal(call: &Call<Crews>, right: &Right, wrong: Wrong) -> Answer {
    match right {
        Ok(walked) => taken(call, walked, wrong),
        Err(number) => refused(call, *number, wrong),
    }
}

fn taken(call: &Call<Crews>, walked: &Walked, wrong: Wrong) -> Answer {
    let crews = call.asked;
    match wrong {
        Wrong::OneDepot if walked.sheet.depots() > 1 => Err(9),
        Wrong::LengthOfRows if !walked.has_rounds(walked.sheet.rows.len()) => Err(4),
        Wrong::Walk(wrong) => {
            let other = walked_otherwise(walked, wrong);
            Ok(crews.deal(&wholes(other.as_ref().unwrap_or(walked).routes())))
        }
        _ => {
            let rounds = walked.routes().iter().enumerate();
            let rounds = rounds.map(|(k, route)| Misread::new(&call.plan, k, route, wrong));
            Ok(misdealt(rounds.collect(), crews, wrong))
        }
    }
}

fn refused(call: &Call<Crews>, number: u32, wrong: Wrong) -> Answer {
    if is_taken(call, number, wrong) {
        return TAKEN;
    }
    let is_wrong = !call.asked.is_in_range();
    let has_depots = || Sheet::decode(&call.sheet).depots() > 1;
    let mended = || call.mended().filter(|other| (5..=10).contains(other));
    Err(match wrong {
        Wrong::OneDepot if [10, 14].contains(&number) && has_depots() => 9,
        Wrong::LengthLast if number == 4 => mended().unwrap_or(4),
        Wrong::CrewsFirst if is_wrong => 14,
        Wrong::CrewsBeforePlan if number == 10 && is_wrong => 14,
        Wrong::Writes if call.len > 0 => CHANGED,
        _ => number,
    })
}

/// Whether a refused call is not refused by the reading.
fn is_taken(call: &Call<Crews>, number: u32, wrong: Wrong) -> bool {
    let Call { plan, asked: Crews(crews), .. } = call;
    let is_longer = || call.wrong_len(number).is_some_and(|(len, right)| len > right);
    match wrong {
        Wrong::LongerTaken => is_longer() && call.mended().is_none(),
        Wrong::NoRoundTaken => number == 14 && round_count(plan) == 0,
        Wrong::NoCrewTaken => number == 14 && *crews == 0,
        Wrong::NineTaken => number == 14 && *crews == 9,
        Wrong::LowByte => number == 14 && Crews(crews & 0xff).is_in_range(),
        _ => false,
    }
}

/// A round as it is misread: what it counts, and the duration itself.
struct Misread {
    count: u64,
    duration: f64,
    is_empty: bool,
}

impl Misread {
    fn new(plan: &[u8], k: usize, route: &Route, wrong: Wrong) -> Misread {
        let (duration, is_empty) = (route.total_duration(), route.is_empty());
        let count = match wrong {
            Wrong::RoundedDown => duration as u64,
            Wrong::Nearest => duration.round() as u64,
            Wrong::OneMore => duration as u64 + 1,
            Wrong::Narrow => u64::from(begun(1, duration) as u32),
            Wrong::Distances => begun(1, route.total_distance()),
            Wrong::EmptyOfNoTime if is_empty => 0,
            // Any bytes: what is none of a duration counts as 0 or as very long.
            Wrong::PlanFigures => {
                let figure = f64::from_le_bytes(field(plan, round_at(k) + 24));
                figure.ceil().clamp(0.0, 1e15) as u64
            }
            _ => begun(1, duration),
        };
        Misread { count, duration, is_empty }
    }
}

/// The rounds dealt in an order, each to a crew, both by the reading.
fn misdealt(rounds: Vec<Misread>, crews: Crews, wrong: Wrong) -> Vec<u8> {
    let crews = crews.0 as usize;
    let (mut totals, mut sums, mut counts) = (vec![0u64; crews], vec![0.0; crews], vec![0; crews]);
    let mut deal = vec![0; rounds.len()];
    for k in order(&rounds, wrong) {
        let least = match wrong {
            Wrong::HigherCrew => (0..crews).min_by_key(|crew| (totals[*crew], Reverse(*crew))),
            Wrong::FewestRounds => (0..crews).min_by_key(|crew| counts[*crew]),
            Wrong::UnroundedTotals => {
                (0..crews).min_by(|one, other| f64::total_cmp(&sums[*one], &sums[*other]))
            }
            Wrong::NarrowTotals => (0..crews).min_by_key(|crew| totals[*crew] as u32),
            _ => (0..crews).min_by_key(|crew| totals[*crew]),
        };
        let crew = least.expect("there is a crew");
        totals[crew] += rounds[k].count;
        sums[crew] += rounds[k].duration;
        counts[crew] += 1;
        deal[k] = crew as u8 + u8::from(wrong != Wrong::FromZero);
    }
    deal
}

fn order(rounds: &[Misread], wrong: Wrong) -> Vec<usize> {
    let mut order: Vec<usize> = (0..rounds.len()).collect();
    let count = |k: &usize| rounds[*k].count;
    match wrong {
        Wrong::OwnOrder => (),
        Wrong::ShortestFirst => order.sort_by_key(count),
        Wrong::HigherRound => order.sort_by_key(|k| Reverse((count(k), *k))),
        Wrong::UnroundedOrder => {
            order.sort_by(|one, other| {
                f64::total_cmp(&rounds[*other].duration, &rounds[*one].duration)
            });
        }
        _ => order.sort_by_key(|k| Reverse(count(k))),
    }
    if wrong == Wrong::EmptyNotDealt {
        order.retain(|k| !rounds[*k].is_empty);
    }
    order
}

//! What the reasons of a plan have met, told by the lone rounds of the stops that are set aside and by
//! lone rounds that differ a little (set_aside.rs).

use crate::billing::Tariff;
use crate::corners::Corners;
use crate::limit_calls::Call;
use crate::plan::{chains, reason_of};
use crate::plan_calls;
use crate::reason_copies::{Copies, COPIES};
use crate::reasoning::{reason, NO_VEHICLE, RULES};
use crate::set_aside::*;
use crate::sheet::{Sheet, INSERTION, NEAREST, NN_TW, SAVINGS, SWEEP};
use crate::wrong_reasons::{first_depot, lower_depot};

const ALL: &[u8] = &[SAVINGS, INSERTION, NEAREST, NN_TW, SWEEP];
const LOADED: &[u8] = &[INSERTION, NEAREST, NN_TW, SWEEP];
const ONE_VEHICLE: &[u8] = &[SAVINGS, INSERTION, SWEEP];
const GREEDY: &[u8] = &[NEAREST, NN_TW];
const PLAIN: &[u8] = &[NEAREST];

/// Of a plan.
const PLANS: [(&str, &[u8]); 3] = [
    ("1, no depot has a vehicle", GREEDY),
    ("two reasons in one plan", ALL),
    ("a routed stop that has no lone round", ALL),
];

/// Of a stop that is set aside where a depot has a vehicle.
const STOPS: &[(&str, &[u8], fn(&Aside) -> bool)] = &[
    ("2, over capacity", LOADED, |it| it.why == 2),
    ("3, window missed", ALL, |it| it.why == 3),
    ("4, no place for the rest", ALL, |it| it.why == 4),
    ("5, over distance", ALL, |it| it.why == 5),
    ("6, over duration or home late", ALL, |it| it.why == 6),
    ("7, the fleet is used up", GREEDY, |it| it.why == 7),
    // Broken by one step, or kept to the last.
    ("2, one above capacity", LOADED, |it| it.breaks(2, MORE_ROOM)),
    ("a load at capacity", LOADED, |it| it.keeps(2, LESS_ROOM)),
    ("3, one step after the due", ALL, |it| it.breaks(3, LATER_DUE)),
    ("an arrival at the due", ALL, |it| it.keeps(3, SOONER_DUE)),
    ("4, one step after latest", ALL, |it| !it.is_marked() && it.breaks(4, LATER_LATEST)),
    ("a rest from latest on", ALL, |it| !it.is_marked() && it.keeps(4, SOONER_LATEST)),
    ("4, home one step after latest", ALL, |it| {
        it.breaks(4, LATER_LATEST) && it.with(&[NOT_AT_HOME, LATER_LATEST]) == Some(4)
    }),
    ("a rest at home from latest on", ALL, |it| {
        it.keeps(4, SOONER_LATEST) && it.with(&[NOT_AT_HOME]) == Some(4)
    }),
    ("4, home one step after earliest", ALL, |it| it.breaks(4, LATER_EARLIEST)),
    ("home at earliest", ALL, |it| it.keeps(4, SOONER_EARLIEST)),
    ("4, a rest to one step after the due", ALL, |it| it.breaks(4, LATER_DUE)),
    ("a rest up to the due", ALL, |it| it.keeps(4, SOONER_DUE)),
    ("5, one step over the maximum", ALL, |it| it.breaks(5, FARTHER)),
    ("a distance at the maximum", ALL, |it| it.keeps(5, NEARER)),
    ("6, one step over the maximum", ALL, |it| it.breaks(6, LONGER)),
    ("such, with a rest before the stop", ALL, |it| {
        it.breaks(6, LONGER) && !it.is_marked() && it.with(&[NO_REST]) != Some(6)
    }),
    ("such, with a rest at home", ALL, |it| {
        it.breaks(6, LONGER) && it.with(&[NOT_AT_HOME, LONGER]).is_some()
    }),
    ("a duration at the maximum", GREEDY, |it| it.keeps(6, SHORTER)),
    ("6, one step after the depot's due", ALL, |it| it.breaks(6, LATER_HOME)),
    ("such, with a rest before the stop", ALL, |it| {
        it.breaks(6, LATER_HOME) && !it.is_marked() && it.with(&[NO_REST]) != Some(6)
    }),
    ("such, with a rest at home", ALL, |it| {
        it.breaks(6, LATER_HOME) && it.with(&[NOT_AT_HOME, LATER_HOME]).is_some()
    }),
    ("home at the depot's due", GREEDY, |it| it.keeps(6, SOONER_HOME)),
    // Several rules broken, or one alone.
    ("2, a window missed too", LOADED, |it| it.why == 2 && it.with(&[ANY_LOAD]) == Some(3)),
    ("over capacity passed over", &[SAVINGS], |it| it.is_over_capacity()),
    ("3, no place for the rest either", ALL, |it| it.why == 3 && it.with(&[NO_WINDOW]) == Some(4)),
    ("a soft window missed", ALL, |it| it.why != 3 && it.with(&[NO_PENALTY]) == Some(3)),
    ("4, a window that the rest alone misses", ALL, |it| {
        it.why == 4 && it.with(&[NO_WINDOW]) != Some(4)
    }),
    ("4, over a limit without the rest too", ALL, |it| {
        it.why == 4 && it.with(&[NO_REST]).is_some()
    }),
    ("5, over both maxima", ALL, |it| it.why == 5 && it.with(&[ANY_DISTANCE]) == Some(6)),
    ("5, home the only place for the rest", ALL, |it| {
        it.why == 5 && it.with(&[NOT_AT_HOME]) == Some(4)
    }),
    ("6, home the only place for the rest", ALL, |it| {
        it.why == 6 && it.with(&[NOT_AT_HOME]) == Some(4)
    }),
    ("6, by the maximum alone", ALL, |it| it.why == 6 && it.with(&[ANY_DURATION]).is_none()),
    ("6, by the depot's due alone", ALL, |it| it.why == 6 && it.with(&[NO_GATE]).is_none()),
    ("6, by a wait", ALL, |it| it.why == 6 && it.with(&[NO_READY]).is_none()),
    ("7, home mends the round", GREEDY, |it| {
        it.first.is_none() && it.with(&[NOT_AT_HOME]).is_some()
    }),
    // Several depots.
    ("a depot after row 0 tried last", ALL, |it| it.depot > 0),
    ("the depot tried first tells another", ALL, |it| it.is_told_by(first_depot)),
    ("the lower of two as far tells another", ALL, |it| it.is_told_by(lower_depot)),
    ("a farther depot without a vehicle", ALL, |it| it.has_farther()),
    // Other vehicles of the depot.
    ("another vehicle makes the round", ONE_VEHICLE, |it| it.other_makes),
    ("7, only another vehicle makes the round", GREEDY, |it| it.why == 7 && it.first.is_some()),
    ("7, of several the first alone makes it", GREEDY, |it| {
        it.first.is_none() && !it.other_makes && !it.others.is_empty()
    }),
    ("none of several makes the round", GREEDY, |it| it.why < 7 && !it.others.is_empty()),
    // Plain nearest neighbour.
    ("a missed window passed over", PLAIN, |it| it.is_plain() && it.with(&[AS_NN_TW]) == Some(3)),
    ("a wait not counted", PLAIN, |it| {
        it.is_plain() && it.why != 6 && it.with(&[AS_NN_TW, NO_GATE]) == Some(6)
    }),
    ("the depot's due passed over", PLAIN, |it| {
        it.is_plain() && it.why != 6 && it.with(&[AS_NN_TW, NO_WINDOW]) == Some(6)
    }),
    ("5, one step over, and no rest", PLAIN, |it| it.is_plain() && it.breaks(5, FARTHER)),
    ("a distance at the maximum, and no rest", PLAIN, |it| it.is_plain() && it.keeps(5, NEARER)),
    ("6, one step over, and no rest", PLAIN, |it| it.is_plain() && it.breaks(6, LONGER)),
    ("a duration at the maximum, and no rest", PLAIN, |it| it.is_plain() && it.keeps(6, SHORTER)),
    ("no rest, beside a vehicle with one", PLAIN, |it| it.is_plain() && it.is_beside(true)),
    ("a rest, beside a vehicle without one", PLAIN, |it| !it.is_plain() && it.is_beside(false)),
];

pub const CORNERS: Corners = &{
    let mut all = [PLANS[0]; PLANS.len() + STOPS.len() + COPIES.len()];
    let mut k = 0;
    while k < all.len() {
        all[k] = if k < PLANS.len() {
            PLANS[k]
        } else if k < PLANS.len() + STOPS.len() {
            (STOPS[k - PLANS.len()].0, STOPS[k - PLANS.len()].1)
        } else {
            let (name, columns, _) = COPIES[k - PLANS.len() - STOPS.len()];
            (name, columns)
        };
        k += 1;
    }
    all
};

/// Of a sheet and its plan.
pub fn planned(bytes: &[u8], right: &[u8]) -> Vec<bool> {
    let sheet = &Sheet::decode(bytes);
    let rows = sheet.rows.len();
    let chains = chains(right, sheet).expect("the Rust's plan has each stop once");
    let told: Vec<u16> = chains.aside.iter().map(|stop| reason_of(right, rows, *stop)).collect();
    let aside = set_aside(sheet, right);
    let routed = || chains.rounds.iter().flat_map(|(_, stops)| stops);
    let of_plan = [
        told.contains(&NO_VEHICLE),
        told.iter().any(|why| *why != told[0]),
        sheet.depots() > 1 && routed().any(|stop| RULES.contains(&reason(sheet, *stop))),
    ];
    let of_stops = STOPS.iter().map(|(.., is)| aside.iter().any(is));
    of_plan.into_iter().chain(of_stops).chain([false; COPIES.len()]).collect()
}

/// Of a call of the limiter and its answer.
pub fn limited(call: &Call, right: &Result<Vec<u8>, u32>) -> Vec<bool> {
    copied(&Copies::limited(&Sheet::decode(&call.sheet), &call.plan_in, right))
}

/// Of a call for a bill and its answer.
pub fn billed(call: &plan_calls::Call<Tariff>, right: &Result<Vec<u8>, u32>) -> Vec<bool> {
    copied(&Copies::billed(&Sheet::decode(&call.sheet), &call.plan, right))
}

/// Of a plan in that is limited or billed.
pub fn copied(copies: &Copies) -> Vec<bool> {
    let none = [false; PLANS.len() + STOPS.len()];
    none.into_iter().chain(COPIES.iter().map(|(.., is)| is(copies))).collect()
}

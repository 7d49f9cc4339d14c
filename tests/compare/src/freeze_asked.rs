//! The frozen calls for bills and for deals with the harness's own answers.
//!
//! A record has little-endian u32: the sheet's length, the plan's, what is asked (for a bill the rates of
//! distance and of duration and the least charge, for a deal the number of crews) and the buffer's length;
//! then the sheet and the plan. Its line is that of a frozen plan: `refused` and the number, or the
//! answer's bytes. The plans that are planned or limited are the Rust's.

use crate::billing::Tariff;
use crate::corners::{self, BILL};
use crate::dealing::Crews;
use crate::flavours::drawn_with_reasons;
use crate::freeze::Kept;
use crate::freeze_limits::REASONS;
use crate::freeze_plans::is_long;
use crate::plan_answers::{bytes, expected, kinds, met, Answered};
use crate::plan_calls::{call, Call, Makers};
use crate::reference::{limit, plan};
use crate::refusal::METHODS;
use crate::sample::{Sample, Wanted, MOST_LENT};
use crate::{reason_corners, reasons};

const BILLS: Wanted =
    Wanted { answers: &[0, 1, 2, 3, 4, 5, 6, 7, 8, 10, 13], often: 2, count: 200 };
const DEALS: Wanted =
    Wanted { answers: &[0, 1, 2, 3, 4, 5, 6, 7, 8, 10, 14], often: 2, count: 200 };
/// What a sample has no room for.
const LARGE: [&str; 3] = ["101 rows", "101 rounds", "10, 65,535 rounds"];

const RUST: Makers = Makers {
    plan: |sheet| plan(METHODS, sheet).expect("an accepted sheet"),
    limit: |sheet, plan_in, greatest| limit(sheet, plan_in, greatest).expect("a lawful plan in"),
};

/// Of the comparison of bills, and then of that of reasons.
pub fn bills(seed: u64) -> Vec<Kept> {
    let mut kept = sample::<Tariff>(seed, BILLS);
    let corners = corners::numbers(reason_corners::CORNERS, &[BILL]);
    kept.extend(Sample::kept(corners, REASONS, |sample, number| {
        let call = reasons::bill_call(&drawn_with_reasons(seed, number), seed, number);
        if is_kept(&call) {
            let right = bytes(call.asked, &expected(&call));
            let met = reason_corners::billed(&call, &right);
            sample.offer(&right, corners::seen(BILL, &met), asked(&call));
        }
    }));
    kept
}

pub fn deals(seed: u64) -> Vec<Kept> {
    sample::<Crews>(seed, DEALS)
}

fn sample<A: Answered>(seed: u64, wanted: Wanted) -> Vec<Kept> {
    let mut kinds = kinds::<A>();
    kinds.retain(|kind| !LARGE.contains(kind));
    Sample::kept(0..kinds.len(), wanted, |sample, number| {
        let call = call::<A>(seed, number, &RUST);
        if is_kept(&call) {
            let right = expected(&call);
            let met = met(&call, &right);
            let bytes = bytes(call.asked, &right);
            sample.offer(&bytes, |kind| met.contains(&kinds[kind]), asked(&call));
        }
    })
}

fn is_kept<A: Answered>(call: &Call<A>) -> bool {
    let lens = [call.sheet.len(), call.plan.len(), call.len];
    !is_long(&call.sheet) && lens.iter().all(|&len| len <= MOST_LENT)
}

fn asked<A: Answered>(call: &Call<A>) -> Vec<u8> {
    let [sheet_len, plan_len, len] =
        [call.sheet.len(), call.plan.len(), call.len].map(|len| len as u32);
    let numbers = [&[sheet_len, plan_len][..], &call.asked.numbers(), &[len]].concat();
    let numbers: Vec<u8> = numbers.into_iter().flat_map(u32::to_le_bytes).collect();
    [&numbers, &call.sheet, &call.plan].map(|part| &part[..]).concat()
}

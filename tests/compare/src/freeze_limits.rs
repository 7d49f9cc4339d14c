//! The frozen calls of the limiter with the Rust's plans out.
//!
//! A record has four little-endian u32, the sheet's length, the plan in's, the greatest number of
//! rounds and the plan out's length, then the sheet and the plan in. Its line is that of a frozen
//! plan: `refused` and the number, or the plan out's bytes.

use crate::corners::{self, Corners};
use crate::flavours::{drawn_at_home, drawn_with_due, drawn_with_reasons};
use crate::freeze::Kept;
use crate::freeze_plans::{is_long, CORNERS};
use crate::kinds::{kinds, LIMITER};
use crate::limit_calls::{call, Call};
use crate::limits::{expected, Expected};
use crate::sample::{Sample, Wanted, MOST_LENT};
use crate::{due_corners, dues, reason_corners, reasons, rest_corners, rests};

const TAKEN: &str = "no call of these is refused";
const LIMITED: Wanted =
    Wanted { answers: &[0, 1, 2, 3, 4, 5, 6, 7, 8, 9, 10], often: 4, count: 280 };
/// Of reasons, which are refused too.
pub const REASONS: Wanted = Wanted { answers: &[0, 10], often: 2, count: 0 };

/// Of the comparison of limited plans, and then of those of depots' dues, of rests at home and of
/// reasons.
pub fn sample(seed: u64) -> Vec<Kept> {
    let kinds = kinds(&[LIMITER]).map(|(kind, _)| kind);
    let kept = Sample::kept(kinds, LIMITED, |sample, number| {
        let call = call(seed, number);
        if let Some(Expected { right, seen, .. }) = kept_answer(&call) {
            sample.offer(&right, |kind| seen.has(kind), asked(&call));
        }
    });
    let dues = met(
        (due_corners::CORNERS, CORNERS),
        |number| dues::limiter_call(&drawn_with_due(seed, number), seed, number),
        |call, right| due_corners::limited(call, right.as_ref().expect(TAKEN)),
    );
    let rests = met(
        (rest_corners::CORNERS, CORNERS),
        |number| rests::limiter_call(&drawn_at_home(seed, number), seed, number),
        |call, right| rest_corners::limited(call, right.as_ref().expect(TAKEN)),
    );
    let reasons = met(
        (reason_corners::CORNERS, REASONS),
        |number| reasons::limiter_call(&drawn_with_reasons(seed, number), seed, number),
        reason_corners::limited,
    );
    [kept, dues, rests, reasons].into_iter().flatten().collect()
}

/// Of a stream's calls, by what their answers have met.
fn met(
    (corners, wanted): (Corners, Wanted),
    call: impl Fn(usize) -> Option<Call>,
    limited: impl Fn(&Call, &Result<Vec<u8>, u32>) -> Vec<bool>,
) -> Vec<Kept> {
    Sample::kept(corners::numbers(corners, &[corners::LIMITER]), wanted, |sample, number| {
        let Some(call) = call(number) else { return };
        if let Some(Expected { right, .. }) = kept_answer(&call) {
            let met = limited(&call, &right);
            sample.offer(&right, corners::seen(corners::LIMITER, &met), asked(&call));
        }
    })
}

fn kept_answer(call: &Call) -> Option<Expected> {
    let lens = [call.sheet.len(), call.plan_in.len(), call.plan_out_len];
    let kept = !is_long(&call.sheet) && lens.iter().all(|&len| len <= MOST_LENT);
    kept.then(|| expected(call))
}

fn asked(call: &Call) -> Vec<u8> {
    let Call { sheet, plan_in, greatest, plan_out_len, .. } = call;
    let lens = [sheet.len(), plan_in.len(), *plan_out_len];
    let [sheet_len, in_len, out_len] = lens.map(|len| (len as u32).to_le_bytes());
    let numbers = [sheet_len, in_len, greatest.to_le_bytes(), out_len].concat();
    [&numbers, sheet, plan_in].map(|part| &part[..]).concat()
}

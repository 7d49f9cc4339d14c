//! The frozen sheets with the Rust's plans.
//!
//! A record has the sheet's length and the plan buffer's as little-endian u32, then the sheet. Its
//! line is `refused`, a blank and the number in decimal; or the plan's bytes from the first to the
//! last, each as two hexadecimal digits in lower case.
//!
//! No sheet that is planned has more than `MOST_ROWS` rows, and no plan buffer has more than
//! `MOST_LENT` bytes.

use crate::corners::{self, Corners};
use crate::flavours::{drawn, drawn_at_home, drawn_with_due, drawn_with_reasons, Drawn};
use crate::freeze::Kept;
use crate::kinds::kinds;
use crate::plans::{expected, Expected};
use crate::refusal::{self, OFFERED};
use crate::sample::{Sample, Wanted, MOST_LENT};
use crate::{due_corners, reason_corners, rest_corners};

const PLANS: Wanted = Wanted { answers: &[0, 1, 2, 3, 4, 5, 6, 7, 8], often: 4, count: 300 };
/// Every corner of depots' dues, of rests at home and of reasons, plans and limited plans alike.
pub const CORNERS: Wanted = Wanted { answers: &[0], often: 2, count: 0 };
const MOST_ROWS: usize = 12;

/// Of the comparison of plans, and then of those of depots' dues, of rests at home and of reasons.
pub fn sample(seed: u64) -> Vec<Kept> {
    let kinds = kinds(OFFERED).map(|(kind, _)| kind);
    let kept = Sample::kept(kinds, PLANS, |sample, number| {
        let drawn = drawn(OFFERED, seed, number);
        if let Some(Expected { right, seen, .. }) = kept_answer(&drawn) {
            sample.offer(&right, |kind| seen.has(kind), asked(&drawn));
        }
    });
    let dues =
        met(due_corners::CORNERS, |number| drawn_with_due(seed, number), due_corners::planned);
    let rests =
        met(rest_corners::CORNERS, |number| drawn_at_home(seed, number), rest_corners::planned);
    let reasons = met(
        reason_corners::CORNERS,
        |number| drawn_with_reasons(seed, number),
        reason_corners::planned,
    );
    [kept, dues, rests, reasons].into_iter().flatten().collect()
}

/// Of a stream's sheets, by what their plans have met.
fn met(
    corners: Corners,
    drawn: impl Fn(usize) -> Drawn,
    planned: impl Fn(&[u8], &[u8]) -> Vec<bool>,
) -> Vec<Kept> {
    Sample::kept(corners::numbers(corners, OFFERED), CORNERS, |sample, number| {
        let drawn = drawn(number);
        if let Some(Expected { right: Ok(right), .. }) = kept_answer(&drawn) {
            let met = planned(&drawn.sheet, &right);
            let seen = corners::seen(drawn.sheet[4], &met);
            sample.offer(&Ok(right), seen, asked(&drawn));
        }
    })
}

/// Whether a sheet that is read has more rows than a sample's.
pub fn is_long(sheet: &[u8]) -> bool {
    let rows = sheet.first_chunk().map_or(0, |rows| u16::from_le_bytes(*rows));
    (MOST_ROWS + 1..=refusal::MOST_ROWS).contains(&rows.into())
}

/// A plan that only rounded angles give is no one's to keep.
fn kept_answer(drawn: &Drawn) -> Option<Expected> {
    let kept = !is_long(&drawn.sheet) && drawn.plan_len <= MOST_LENT;
    kept.then(|| expected(drawn)).filter(|expected| expected.exact.is_none())
}

fn asked(drawn: &Drawn) -> Vec<u8> {
    let Drawn { sheet, plan_len, .. } = drawn;
    let lens = [sheet.len(), *plan_len].map(|len| (len as u32).to_le_bytes());
    [&lens[0], &lens[1], &sheet[..]].concat()
}

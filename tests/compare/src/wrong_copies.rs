//! Wrong readings of the reasons in a plan in (document 02, request Six), each of which some call has
//! to tell from the right one.

use crate::plan::MOST_REASON;
use crate::reason_copies::Copies;
use crate::reasoning::{reason, DROPPED, USED_UP};

/// Whether a plan in is refused, by the reasons of the stops that it sets aside and by those of all.
const REFUSES: [(&str, fn(&[u16], &[u16]) -> bool); 5] = [
    ("no reason refused", |_, _| false),
    ("9 taken", |aside, _| aside.iter().any(|&why| why > MOST_REASON + 1)),
    ("8 refused", |aside, _| aside.iter().any(|&why| why >= MOST_REASON)),
    ("the low byte of a reason read", |aside, _| aside.iter().any(|&why| why & 0xff > MOST_REASON)),
    ("a routed stop's reason read", |_, all| all.iter().any(|&why| why > MOST_REASON)),
];

/// A stop of a plan out.
struct Stop {
    is_aside: bool,
    /// In the plan in.
    was_aside: bool,
    given: u16,
    /// What a planner tells.
    told: u16,
}

/// What stands in the plan out.
const GIVES: [(&str, fn(&Stop) -> u16); 6] = [
    ("7 for a stop dropped", |it| it.dropped_as(USED_UP)),
    ("0 for a stop dropped", |it| it.dropped_as(0)),
    ("a planner's reason for a stop dropped", |it| it.dropped_as(it.told)),
    ("a planner's reason for one set aside", |it| if it.was_aside { it.told } else { it.right() }),
    ("8 for every stop set aside", |it| if it.is_aside { DROPPED } else { 0 }),
    ("a routed stop's reason copied", |it| if it.is_aside { it.right() } else { it.given }),
];

pub const REFUSALS: usize = REFUSES.len();
pub const WRONG: usize = REFUSES.len() + GIVES.len();

pub fn names() -> impl Iterator<Item = &'static str> {
    REFUSES.iter().map(|(name, _)| *name).chain(GIVES.iter().map(|(name, _)| *name))
}

/// Which readings refuse a plan in that is taken, or take one that is refused.
pub fn told_by_refusal(copies: &Copies) -> [bool; REFUSALS] {
    let stops = copies.sheet.depots()..copies.sheet.rows.len();
    let all: Vec<u16> = stops.map(|stop| copies.given(stop)).collect();
    let aside: Vec<u16> = copies.aside().collect();
    REFUSES.map(|(_, refuses)| refuses(&aside, &all) != copies.is_refused())
}

/// Which readings are told from the right one by a call of the limiter.
pub fn told_by_limiter(copies: &Copies) -> [bool; WRONG] {
    let mut told = [false; WRONG];
    told[..REFUSALS].copy_from_slice(&told_by_refusal(copies));
    for stop in stops(copies) {
        for (told, (_, gives)) in told[REFUSALS..].iter_mut().zip(GIVES) {
            *told |= gives(&stop) != stop.right();
        }
    }
    told
}

/// The stops of a plan out; none of a refused call.
fn stops<'a>(copies: &'a Copies) -> impl Iterator<Item = Stop> + 'a {
    let sheet = copies.sheet;
    let after = copies.after.iter();
    after.flat_map(move |after| {
        (sheet.depots()..sheet.rows.len()).map(move |stop| {
            let is_aside = after.contains(&stop);
            let told = if is_aside { reason(sheet, stop) } else { 0 };
            let was_aside = copies.before.aside.contains(&stop);
            Stop { is_aside, was_aside, given: copies.given(stop), told }
        })
    })
}

impl Stop {
    fn right(&self) -> u16 {
        self.dropped_as(DROPPED)
    }

    /// The same where a stop that is dropped has this reason.
    fn dropped_as(&self, why: u16) -> u16 {
        match (self.is_aside, self.was_aside) {
            (false, _) => 0,
            (true, true) => self.given,
            (true, false) => why,
        }
    }
}

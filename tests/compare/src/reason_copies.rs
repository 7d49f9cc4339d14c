//! Reasons that a plan in has: calls of the limiter on such plans and for bills of them, and what these
//! have met.

use std::ops::RangeInclusive;

use crate::billing::Tariff;
use crate::corners::{BILL, LIMITER};
use crate::flavours::Drawn;
use crate::limit_calls::{dealt, Call, PLANNED};
use crate::plan::MOST_REASON;
use crate::plan::{chains, encode_chains, put_reason, reason_of, without_reasons, Chains};
use crate::plan_calls::{self, Asked};
use crate::plan_damage::{damage_plan, fill_unread, OVER_REASON};
use crate::random::Random;
use crate::reasoning::DROPPED;
use crate::sheet::Sheet;

const TARIFF: Tariff = Tariff { rates: [7, 11], least: 12 };

/// A call on a plan with reasons, that of the sheet or one dealt at random; a reason is at times too
/// great. With several depots it is for a bill alone.
pub fn call_with_reasons(drawn: &Drawn, made: &[u8], seed: u64, number: usize) -> Call {
    let random = &mut Random::numbered(!seed, number);
    let sheet = Sheet::decode(&drawn.sheet);
    let rows = sheet.rows.len();
    let (mut plan_in, plan) = if random.one_in(2) {
        (made.to_vec(), chains(made, &sheet).expect("a plan has each stop once"))
    } else {
        let plan = dealt(&sheet, random);
        (encode_chains(rows, &plan), plan)
    };
    if random.one_in(2) {
        fill_unread(&mut plan_in, &plan, rows, random);
    }
    if random.one_in(2) {
        for &stop in plan.rounds.iter().flat_map(|(_, stops)| stops) {
            let why = random.below(10) as u16;
            put_reason(&mut plan_in, rows, stop, random.pick(&[why, 9, u16::MAX]));
        }
    }
    if random.one_in(4) {
        damage_plan(&mut plan_in, &sheet, &plan, OVER_REASON, random);
    }
    let greatest = random.below(plan.rounds.len() + 1) as u32;
    let (sheet, plan_out_len) = (drawn.sheet.clone(), plan_in.len());
    Call { flavour: PLANNED, sheet, plan_in, greatest, plan_out_len }
}

/// The bill of the plan in.
pub fn billed(call: &Call) -> plan_calls::Call<Tariff> {
    let (sheet, plan) = (call.sheet.clone(), call.plan_in.clone());
    let len = Tariff::len_for(&plan);
    plan_calls::Call { flavour: plan_calls::PLANNED, sheet, plan, asked: TARIFF, len }
}

/// The chains of a plan whose reasons may be wrong.
fn read(sheet: &Sheet, plan: &[u8]) -> Chains {
    chains(&without_reasons(plan), sheet).expect("a plan has each stop once")
}

type Answer = Result<Vec<u8>, u32>;

/// A plan in that is right but perhaps for its reasons, and the stops that are set aside after the call.
pub struct Copies<'a> {
    pub sheet: &'a Sheet,
    plan_in: &'a [u8],
    pub before: Chains,
    /// `None` for a refusal.
    pub after: Option<Vec<usize>>,
}

const BOTH: &[u8] = &[LIMITER, BILL];

/// Each with those that have to meet it.
pub const COPIES: [(&str, &[u8], fn(&Copies) -> bool); 21] = [
    ("0 taken", BOTH, |it| it.takes(0)),
    ("1 taken", BOTH, |it| it.takes(1)),
    ("2 taken", BOTH, |it| it.takes(2)),
    ("3 taken", BOTH, |it| it.takes(3)),
    ("4 taken", BOTH, |it| it.takes(4)),
    ("5 taken", BOTH, |it| it.takes(5)),
    ("6 taken", BOTH, |it| it.takes(6)),
    ("7 taken", BOTH, |it| it.takes(7)),
    ("8 taken", BOTH, |it| it.takes(8)),
    ("a routed stop's 1 to 8 not read", BOTH, |it| it.has_routed(1..=MOST_REASON)),
    ("a routed stop's 9 not read", BOTH, |it| it.has_routed(9..=9)),
    ("a routed stop's 65,535 not read", BOTH, |it| it.has_routed(u16::MAX..=u16::MAX)),
    ("10, a reason of 9", BOTH, |it| it.refuses(9)),
    ("10, a reason of 65,535", BOTH, |it| it.refuses(u16::MAX)),
    ("10, its low byte not above 8", BOTH, |it| {
        it.is_refused() && it.aside().all(|why| why & 0xff <= MOST_REASON)
    }),
    ("10, the first of several alone", BOTH, |it| it.refuses_at(0)),
    ("10, the last of several alone", BOTH, |it| it.refuses_at(it.before.aside.len().max(1) - 1)),
    ("10, of several depots", &[BILL], |it| it.is_refused() && it.sheet.depots() > 1),
    ("8 for a stop dropped", &[LIMITER], |it| it.dropped().next().is_some()),
    ("such, and another copied", &[LIMITER], |it| {
        it.dropped().next().is_some() && it.aside().any(|why| why != DROPPED)
    }),
    ("such, where a reason stood", &[LIMITER], |it| it.dropped().any(|stop| it.given(stop) > 0)),
];

impl<'a> Copies<'a> {
    /// Of the limiter's answer.
    pub fn limited(sheet: &'a Sheet, plan_in: &'a [u8], right: &Answer) -> Copies<'a> {
        let after = right.as_ref().ok().map(|plan_out| read(sheet, plan_out).aside);
        Copies { sheet, plan_in, before: read(sheet, plan_in), after }
    }

    /// Of a bill, for which no stop is set aside.
    pub fn billed(sheet: &'a Sheet, plan: &'a [u8], right: &Answer) -> Copies<'a> {
        let before = read(sheet, plan);
        let after = right.as_ref().ok().map(|_| before.aside.clone());
        Copies { sheet, plan_in: plan, before, after }
    }

    /// What a stop has in the plan in.
    pub fn given(&self, stop: usize) -> u16 {
        reason_of(self.plan_in, self.sheet.rows.len(), stop)
    }

    /// The reasons of the stops that the plan in sets aside.
    pub fn aside(&self) -> impl Iterator<Item = u16> + '_ {
        self.before.aside.iter().map(|stop| self.given(*stop))
    }

    pub fn is_refused(&self) -> bool {
        self.after.is_none()
    }

    fn takes(&self, why: u16) -> bool {
        !self.is_refused() && self.aside().any(|given| given == why)
    }

    fn refuses(&self, why: u16) -> bool {
        self.is_refused() && self.aside().any(|given| given == why)
    }

    /// The stops that are set aside in the plan out alone.
    fn dropped(&self) -> impl Iterator<Item = usize> + '_ {
        let after = self.after.iter().flatten().copied();
        after.filter(|stop| !self.before.aside.contains(stop))
    }

    /// Whether a stop that is routed after the call had such a reason before.
    fn has_routed(&self, reasons: RangeInclusive<u16>) -> bool {
        let stops = self.sheet.depots()..self.sheet.rows.len();
        let is_routed = |stop: &usize| self.after.as_ref().is_some_and(|it| !it.contains(stop));
        stops.filter(is_routed).any(|stop| reasons.contains(&self.given(stop)))
    }

    /// Whether the reason at a place of a chain of several is the only one too great.
    fn refuses_at(&self, place: usize) -> bool {
        let is_over = |(at, why): (usize, u16)| (why > MOST_REASON) == (at == place);
        let is_chain = self.is_refused() && self.before.aside.len() > 1;
        is_chain && self.aside().enumerate().all(is_over)
    }
}

//! `compare reasons`: plans of sheets that are fitted to the lone rounds of their stops, with the reasons
//! of this harness's (reasoning.rs, lawful_reasons.rs); and of plans with reasons, right and wrong ones,
//! the limiter's plans out and the bills. Wrong readings (wrong_reasons.rs, wrong_copies.rs) have to be
//! told from the right ones.

use std::process::ExitCode;

use crate::billing::Tariff;
use crate::corners::{Tally, BILL, LIMITER};
use crate::flavours::{drawn_with_reasons, Drawn};
use crate::lawful_reasons::judge_plan;
use crate::limit_calls::Call;
use crate::plan::{chains, reason_of, Chains};
use crate::plan_answers::{answer, apart, bytes, expected, show};
use crate::plan_calls;
use crate::reason_copies::{billed, call_with_reasons, Copies};
use crate::reason_corners::{self, CORNERS};
use crate::reference::plan;
use crate::refusal::OFFERED;
use crate::set_aside::{set_aside, Aside};
use crate::sheet::Sheet;
use crate::wrong_copies::{self, told_by_limiter, told_by_refusal};
use crate::wrong_reasons::{self, wrong_reason};
use crate::{limits, plans};

/// In a run of so many sheets every corner has to occur and every wrong reading to be told.
const MANY: usize = 100_000;
/// A reading that plans have told so often is not worked out any more.
const ENOUGH: usize = 1000;

struct Stream {
    tally: Tally,
    /// How often each wrong reading was told: of a reason, of a routed stop's, and of those in a plan in,
    /// by the limiter and by bills.
    reasons: [usize; wrong_reasons::WRONG],
    routed: usize,
    limits: [usize; wrong_copies::WRONG],
    bills: [usize; wrong_copies::REFUSALS],
}

pub fn run(count: usize, seed: u64) -> ExitCode {
    println!("reasons: seed {seed}");
    let mut stream = Stream {
        tally: Tally::new(seed, CORNERS),
        reasons: [0; wrong_reasons::WRONG],
        routed: 0,
        limits: [0; wrong_copies::WRONG],
        bills: [0; wrong_copies::REFUSALS],
    };
    (0..count).for_each(|number| stream.try_sheet(number));
    stream.print();
    let missing = count >= MANY && stream.missing();
    if missing {
        println!("  a corner never occurred, or a wrong reading was not told from the right one");
    }
    let tally = &stream.tally;
    let (calls, bills, differences) = (tally.calls(), tally.bills(), tally.differences());
    println!(
        "reasons: {count} sheets, {calls} limiter calls, {bills} bills, {differences} differences"
    );
    ExitCode::from(u8::from(missing || differences > 0))
}

/// The call of the limiter that goes with a sheet of a number; `None` for several depots.
pub fn limiter_call(drawn: &Drawn, seed: u64, number: usize) -> Option<Call> {
    let one = Sheet::decode(&drawn.sheet).depots() == 1;
    one.then(|| call_with_reasons(drawn, &planned(drawn), seed, number))
}

/// The call for a bill.
pub fn bill_call(drawn: &Drawn, seed: u64, number: usize) -> plan_calls::Call<Tariff> {
    billed(&call_with_reasons(drawn, &planned(drawn), seed, number))
}

fn planned(drawn: &Drawn) -> Vec<u8> {
    plan(OFFERED, &drawn.sheet).expect("an accepted sheet")
}

impl Stream {
    fn try_sheet(&mut self, number: usize) {
        let drawn = drawn_with_reasons(self.tally.seed, number);
        let sheet = Sheet::decode(&drawn.sheet);
        let made = self.try_plan(&drawn, &sheet, number);
        let call = call_with_reasons(&drawn, &made, self.tally.seed, number);
        if sheet.depots() == 1 {
            self.try_limit(&call, &sheet, number);
        }
        self.try_bill(&billed(&call), &sheet, number);
    }

    /// The right plan.
    fn try_plan(&mut self, drawn: &Drawn, sheet: &Sheet, number: usize) -> Vec<u8> {
        let (expected, said) = (plans::expected(drawn), plans::answer(drawn));
        let right = expected.right.as_ref().expect("an accepted sheet");
        self.misread(sheet, right);
        let tally = &mut self.tally;
        tally.count(sheet.method, reason_corners::planned(&drawn.sheet, right));
        let verdict = expected.verdict(&said);
        tally.explained += usize::from(verdict == Ok(true));
        let plan = said.as_ref().ok();
        let broken = plan.and_then(|plan| judge_plan(&drawn.sheet, plan, &mut tally.claims).err());
        let is_crossed = set_aside(sheet, right).iter().all(Aside::is_crossed);
        let crossed = (!is_crossed).then_some("a lone round that is not judged as by the Rust");
        let lost = expected.lost.or(crossed).map(String::from);
        if let Some(what) = verdict.err().or(lost).or(broken) {
            let about = plans::about(drawn, tally.seed, number);
            tally.differ(sheet.method, &what, &about, &drawn.sheet, [&expected.right, &said]);
        }
        right.clone()
    }

    /// The wrong readings of a plan's reasons.
    fn misread(&mut self, sheet: &Sheet, right: &[u8]) {
        if sheet.vehicles.is_empty() {
            return;
        }
        let Chains { rounds, aside } = chains(right, sheet).expect("a plan has each stop once");
        self.routed += usize::from(!rounds.is_empty());
        let why = |stop: usize| reason_of(right, sheet.rows.len(), stop);
        for (reading, told) in self.reasons.iter_mut().enumerate() {
            let is_told = |&stop: &usize| wrong_reason(reading, sheet, stop) != why(stop);
            *told += usize::from(*told < ENOUGH && aside.iter().any(is_told));
        }
    }

    fn try_limit(&mut self, call: &Call, sheet: &Sheet, number: usize) {
        let (expected, said) = (limits::expected(call), limits::answer(call));
        let copies = Copies::limited(sheet, &call.plan_in, &expected.right);
        self.tally.count(LIMITER, reason_corners::copied(&copies));
        add(&mut self.limits, &told_by_limiter(&copies));
        if let Some(what) = expected.fault(call, &said) {
            let about = limits::about(call, self.tally.seed, Some(number));
            self.tally.differ(LIMITER, &what, &about, &call.sheet, [&expected.right, &said]);
        }
    }

    fn try_bill(&mut self, call: &plan_calls::Call<Tariff>, sheet: &Sheet, number: usize) {
        let (right, said) = (bytes(call.asked, &expected(call)), answer(call));
        let copies = Copies::billed(sheet, &call.plan, &right);
        self.tally.count(BILL, reason_corners::copied(&copies));
        add(&mut self.bills, &told_by_refusal(&copies));
        if let Some(what) = apart::<Tariff>(&said, &right) {
            if self.tally.is_shown(BILL) {
                show(&what, call, self.tally.seed, Some(number), [&right, &said]);
            }
        }
    }

    fn print(&self) {
        self.tally.print();
        let line = |name: &str, told: usize, by: &str| {
            println!("  wrong: {name:42} told {told:>9} times by {by}");
        };
        for (name, told) in wrong_reasons::names().zip(self.reasons) {
            line(name, told, "plans");
        }
        line("a reason for a routed stop", self.routed, "plans");
        for (name, told) in wrong_copies::names().zip(self.limits) {
            line(name, told, "the limiter");
        }
        for (name, told) in wrong_copies::names().zip(self.bills) {
            line(name, told, "bills");
        }
    }

    fn missing(&self) -> bool {
        let told = [&self.reasons[..], &[self.routed], &self.limits, &self.bills];
        self.tally.missing() || told.concat().contains(&0)
    }
}

fn add(counts: &mut [usize], told: &[bool]) {
    counts.iter_mut().zip(told).for_each(|(count, told)| *count += usize::from(*told));
}

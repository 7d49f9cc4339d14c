//! `compare dues`: plans of sheets where a depot has a due against the Rust's of lowered maximum
//! durations (reference.rs), bytes to bytes, and against document 01's "A lawful round"; and for one
//! depot the limiter's plans out, of plans that do not keep the due.

use std::process::ExitCode;

use crate::corners::{Tally, LIMITER};
use crate::due_corners::{self, CORNERS};
use crate::flavours::{drawn_with_due, Drawn};
use crate::lawful_reasons::judge_plan;
use crate::limit_calls::{call_with_due, Call};
use crate::random::Random;
use crate::sheet::Sheet;
use crate::{limits, plans};

/// In a run of so many sheets every corner has to occur.
const MANY: usize = 100_000;

pub fn run(count: usize, seed: u64) -> ExitCode {
    println!("dues: seed {seed}");
    let mut tally = Tally::new(seed, CORNERS);
    (0..count).for_each(|number| try_sheet(&mut tally, number));
    tally.print();
    let missing = count >= MANY && tally.missing();
    if missing {
        println!("  a corner never occurred, so nothing is shown of it");
    }
    let (calls, differences) = (tally.calls(), tally.differences());
    println!("dues: {count} sheets, {calls} limiter calls, {differences} differences");
    ExitCode::from(u8::from(missing || differences > 0))
}

/// The call of the limiter that goes with a sheet of a number; `None` for several depots.
pub fn limiter_call(drawn: &Drawn, seed: u64, number: usize) -> Option<Call> {
    let one = Sheet::decode(&drawn.sheet).depots() == 1;
    one.then(|| call_with_due(drawn, &mut Random::numbered(!seed, number)))
}

fn try_sheet(tally: &mut Tally, number: usize) {
    let drawn = drawn_with_due(tally.seed, number);
    try_plan(tally, &drawn, number);
    if let Some(call) = limiter_call(&drawn, tally.seed, number) {
        try_limit(tally, &call, number);
    }
}

fn try_plan(tally: &mut Tally, drawn: &Drawn, number: usize) {
    let method = drawn.sheet[4];
    let expected = plans::expected(drawn);
    let said = plans::answer(drawn);
    if let Ok(right) = &expected.right {
        tally.count(method, due_corners::planned(&drawn.sheet, right));
    }
    let refused = expected.right.is_err().then(|| "a sheet that is refused".into());
    let verdict = expected.verdict(&said);
    tally.explained += usize::from(verdict == Ok(true));
    let plan = said.as_ref().ok();
    let broken = plan.and_then(|plan| judge_plan(&drawn.sheet, plan, &mut tally.claims).err());
    let lost = expected.lost.map(String::from);
    if let Some(what) = verdict.err().or(refused).or(lost).or(broken) {
        let about = plans::about(drawn, tally.seed, number);
        tally.differ(method, &what, &about, &drawn.sheet, [&expected.right, &said]);
    }
}

fn try_limit(tally: &mut Tally, call: &Call, number: usize) {
    let expected = limits::expected(call);
    let said = limits::answer(call);
    if let Ok(right) = &expected.right {
        tally.count(LIMITER, due_corners::limited(call, right));
    }
    let refused = expected.right.is_err().then(|| "a call that is refused".into());
    if let Some(what) = expected.fault(call, &said).or(refused) {
        let about = limits::about(call, tally.seed, Some(number));
        tally.differ(LIMITER, &what, &about, &call.sheet, [&expected.right, &said]);
    }
}

//! `compare rests`: plans, and for one depot the limiter's plans out, of sheets where vehicles may rest
//! at home. They are held against the Rust's constructors over a walk of this harness's (reference.rs),
//! every record also against the Rust as it is (cross.rs), and against document 01's "A lawful round";
//! and where a rest can stand at home only, against the Rust without rests (hard_rests.rs). The
//! limiter's calls of all tiny plans come first.

use std::process::ExitCode;

use crate::corners::{Tally, BILL, LIMITER};
use crate::cross::Cross;
use crate::flavours::{drawn_at_home, Drawn};
use crate::hard_rests::hardened;
use crate::lawful_reasons::judge_plan;
use crate::limit_calls::{call_at_home, Call};
use crate::plan::{chains, encode, without_reasons};
use crate::planner::PLANNER;
use crate::plans::apart;
use crate::random::Random;
use crate::refusal::limiter_accepted;
use crate::rest_corners::{self, has_rest_at_home, CORNERS};
use crate::sheet::Sheet;
use crate::tiny_plans::each_tiny_at_home;
use crate::{hard_rests, limits, plans};

/// In a run of so many sheets every corner has to occur.
const MANY: usize = 100_000;

/// What the Rust without rests makes of a sheet or a call, if it can be asked.
type Restless = Option<Vec<u8>>;
/// How many of these had a rest at home, by method and by the limiter.
type Rested = [usize; BILL as usize];

pub fn run(count: usize, seed: u64) -> ExitCode {
    println!("rests: seed {seed}");
    let (mut tally, mut rested) = (Tally::new(seed, CORNERS), Rested::default());
    each_tiny_at_home(|call| try_limit(&mut tally, call, None, None));
    (0..count).for_each(|number| try_sheet(&mut tally, &mut rested, number));
    tally.print();
    let told = rested.map(|n| format!("{n:>9}")).concat();
    println!("  {:42} {told}", "rests at home that the Rust without rests tells");
    let missing = count >= MANY && (tally.missing() || rested.contains(&0));
    if missing {
        println!("  a corner never occurred, so nothing is shown of it");
    }
    if !PLANNER {
        println!("  the planner was not asked: built without it");
    }
    let (calls, differences) = (tally.calls(), tally.differences());
    println!("rests: {count} sheets, {calls} limiter calls, {differences} differences");
    ExitCode::from(u8::from(missing || differences > 0 || !PLANNER))
}

/// The call of the limiter that goes with a sheet of a number; `None` for several depots.
pub fn limiter_call(drawn: &Drawn, seed: u64, number: usize) -> Option<Call> {
    let one = Sheet::decode(&drawn.sheet).depots() == 1;
    one.then(|| call_at_home(drawn, &mut Random::numbered(!seed, number)))
}

fn try_sheet(tally: &mut Tally, rested: &mut Rested, number: usize) {
    let drawn = drawn_at_home(tally.seed, number);
    try_plan(tally, &drawn, number, None);
    if let Some(call) = limiter_call(&drawn, tally.seed, number) {
        try_limit(tally, &call, Some(number), None);
    }
    try_hard(tally, rested, drawn, number);
}

/// The same where a rest can stand at home only.
fn try_hard(tally: &mut Tally, rested: &mut Rested, drawn: Drawn, number: usize) {
    let mut tell = |column: u8, sheet: &Sheet, plan: &[u8]| {
        rested[usize::from(column)] += usize::from(has_rest_at_home(sheet, plan));
    };
    let random = &mut Random::numbered(tally.seed.rotate_left(32), number);
    let sheet = hardened(&Sheet::decode(&drawn.sheet), random);
    let drawn = Drawn { sheet: sheet.encode(), ..drawn };
    let right = hard_rests::plan(&sheet);
    tell(sheet.method, &sheet, &right);
    try_plan(tally, &drawn, number, Some(right));
    if let Some(call) = limiter_call(&drawn, !tally.seed, number) {
        let accepted = limiter_accepted(&call.sheet, &call.plan_in, call.plan_out_len);
        let (sheet, chains) = accepted.expect("a plan of the harness's");
        let sheet = hardened(&sheet, random);
        let call = Call { sheet: sheet.encode(), ..call };
        let right = hard_rests::limited(&sheet, &chains, call.greatest);
        tell(LIMITER, &sheet, &right);
        try_limit(tally, &call, Some(number), Some(right));
    }
}

fn try_plan(tally: &mut Tally, drawn: &Drawn, number: usize, restless: Restless) {
    let method = drawn.sheet[4];
    let expected = plans::expected(drawn);
    let said = if PLANNER { plans::answer(drawn) } else { expected.right.clone() };
    if let (Ok(right), None) = (&expected.right, &restless) {
        tally.count(method, rest_corners::planned(&drawn.sheet, right));
    }
    let verdict = if PLANNER { expected.verdict(&said) } else { Ok(false) };
    tally.explained += usize::from(verdict == Ok(true));
    let plan = said.as_ref().ok();
    let broken = plan.and_then(|plan| judge_plan(&drawn.sheet, plan, &mut tally.claims).err());
    let lost = expected.lost.map(String::from);
    let apart = unlike(&drawn.sheet, &expected.right, restless);
    if let Some(what) = verdict.err().or(lost).or(broken).or(apart) {
        let about = plans::about(drawn, tally.seed, number);
        tally.differ(method, &what, &about, &drawn.sheet, [&expected.right, &said]);
    }
}

fn try_limit(tally: &mut Tally, call: &Call, number: Option<usize>, restless: Restless) {
    let expected = limits::expected(call);
    let said = if PLANNER { limits::answer(call) } else { expected.right.clone() };
    if let (Ok(right), None) = (&expected.right, &restless) {
        tally.count(LIMITER, rest_corners::limited(call, right));
    }
    let fault = if PLANNER { expected.fault(call, &said) } else { expected.lost() };
    let apart = unlike(&call.sheet, &expected.right, restless);
    if let Some(what) = fault.or(apart) {
        let about = limits::about(call, tally.seed, number);
        tally.differ(LIMITER, &what, &about, &call.sheet, [&expected.right, &said]);
    }
}

/// What the harness expects otherwise than the Rust as it is, reasons left out: a refusal, a record of a
/// round, or a whole plan where it can be asked for one.
fn unlike(sheet: &[u8], right: &Result<Vec<u8>, u32>, restless: Restless) -> Option<String> {
    let Ok(plan) = right else { return Some("a sheet that is refused".into()) };
    let (sheet, plan) = (Sheet::decode(sheet), without_reasons(plan));
    let rounds = chains(&plan, &sheet).expect("the Rust's plan has each stop once");
    let crossed = encode(sheet.rows.len(), &Cross::new(&sheet).solution(&rounds));
    let records = !rounds.rounds.is_empty() && crossed != plan;
    let whole = restless.and_then(|restless| apart(&Ok(plan), &Ok(restless)));
    let records = records.then(|| "a record that is not the Rust's".into());
    records.or(whole.map(|what| format!("{what}, of the Rust without rests")))
}

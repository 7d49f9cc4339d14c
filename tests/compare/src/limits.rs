//! `compare limits`: the limiter's plans out against the Rust's with reasons of this harness's, bytes to
//! bytes, and each against what it has to keep.

use std::process::ExitCode;

use crate::kinds::{kinds, Seen, LIMITER};
use crate::limit_calls::{call, Call, FLAVOURS, PLANNED};
use crate::planner;
use crate::plans::{apart, decoded, hexadecimal, pattern};
use crate::promises::broken;
use crate::reasoning::copied;
use crate::reference::Problem;
use crate::refusal::limiter_accepted;
use crate::tiny_plans::each_tiny;

/// Differences shown whole.
const SHOWN: usize = 3;
/// In a run of so many calls every flavour and every kind has to occur.
const MANY: usize = 100_000;
const ANSWERS: usize = 11;

struct Tally {
    seed: u64,
    calls: [usize; FLAVOURS.len()],
    refused: [usize; FLAVOURS.len()],
    differences: [usize; FLAVOURS.len()],
    answers: [usize; ANSWERS],
    /// Of the Rust's own plans.
    methods: [usize; 5],
    /// Refusals 4 by the lengths that are wrong: the sheet's is 1, the plan in's 2, the plan out's 4.
    lengths: [usize; 8],
    kinds: Vec<(usize, &'static str, usize)>,
}

/// `count` calls after those of all tiny plans.
pub fn run(count: usize, seed: u64) -> ExitCode {
    println!("limits: seed {seed}");
    let zeros = [0; FLAVOURS.len()];
    let mut tally = Tally {
        seed,
        calls: zeros,
        refused: zeros,
        differences: zeros,
        answers: [0; ANSWERS],
        methods: [0; 5],
        lengths: [0; 8],
        kinds: kinds(&[LIMITER]).map(|(kind, name)| (kind, name, 0)).collect(),
    };
    each_tiny(|call| tally.try_call(call, None));
    (0..count).for_each(|number| tally.try_call(&call(seed, number), Some(number)));
    tally.print();
    let missing = count >= MANY && tally.missing();
    if missing {
        println!("  a flavour, a kind or an answer never occurred, so nothing is shown of it");
    }
    let [calls, differences] =
        [tally.calls, tally.differences].map(|all| all.iter().sum::<usize>());
    println!("limits: {calls} calls, {differences} differences");
    ExitCode::from(u8::from(missing || differences > 0))
}

/// One call again, both answers shown.
pub fn show(number: usize, seed: u64) -> ExitCode {
    let call = call(seed, number);
    let expected = expected(&call);
    let said = answer(&call);
    println!("{}", about(&call, seed, Some(number)));
    println!("{}", decoded(&call.sheet, "Rust", &expected.right));
    println!("{}", decoded(&call.sheet, "limiter", &said));
    ExitCode::from(u8::from(expected.fault(&call, &said).is_some()))
}

/// The Rust's answer, what it has met, and where this harness does not follow.
pub struct Expected {
    pub right: Result<Vec<u8>, u32>,
    pub seen: Seen,
    lost: bool,
}

pub fn expected(call: &Call) -> Expected {
    match limiter_accepted(&call.sheet, &call.plan_in, call.plan_out_len) {
        Err(number) => Expected { right: Err(number), seen: Seen::default(), lost: false },
        Ok((sheet, chains)) => {
            let problem = Problem::held(&sheet);
            let solution = problem.limited(chains.clone(), call.greatest as usize);
            let mut seen = Seen::default();
            seen.unread(&call.plan_in, sheet.rows.len(), chains.rounds.len());
            let lost = !seen.limiting(&problem, &chains, call.greatest, &solution);
            let right = copied(&call.plan_in, sheet.rows.len(), &chains.aside, &solution);
            Expected { right: Ok(right), seen, lost }
        }
    }
}

impl Expected {
    pub fn lost(&self) -> Option<String> {
        self.lost.then(|| "the steps of the limiter are not the Rust's".into())
    }

    /// What is wrong with an answer: another one, a promise not kept, or a plan out that is not
    /// its own plan out.
    pub fn fault(&self, call: &Call, said: &Result<Vec<u8>, u32>) -> Option<String> {
        apart(said, &self.right).or(self.lost()).or_else(|| {
            let plan_out = said.as_ref().ok()?;
            let (sheet, chains) =
                limiter_accepted(&call.sheet, &call.plan_in, plan_out.len()).ok()?;
            let problem = Problem::held(&sheet);
            let broken = broken(&sheet, &problem, &chains, call.greatest, plan_out);
            broken.map(|what| format!("broken: {what}")).or_else(|| {
                let again = ask(&call.sheet, plan_out, call.greatest, call.plan_out_len);
                (again != *said).then(|| "another plan when it is limited again".into())
            })
        })
    }
}

pub fn answer(call: &Call) -> Result<Vec<u8>, u32> {
    ask(&call.sheet, &call.plan_in, call.greatest, call.plan_out_len)
}

fn ask(sheet: &[u8], plan_in: &[u8], greatest: u32, len: usize) -> Result<Vec<u8>, u32> {
    lent(sheet, plan_in, len, |sheet, plan, out| planner::limit(sheet, plan, greatest, out))
}

/// The answer of a function that is lent a sheet, a plan and a buffer of `len` bytes, where a refused
/// call leaves the buffer as it was; one that does not is 99, and one that changes what it was given
/// 98 or 97.
pub fn lent(
    sheet: &[u8],
    plan: &[u8],
    len: usize,
    call: impl Fn(&[u8], &[u8], &mut [u8]) -> u32,
) -> Result<Vec<u8>, u32> {
    let [lent_sheet, lent_plan]: [Box<[u8]>; 2] = [sheet.into(), plan.into()];
    let mut buffer = pattern(len);
    match call(&lent_sheet, &lent_plan, &mut buffer) {
        _ if lent_sheet[..] != *sheet => Err(98),
        _ if lent_plan[..] != *plan => Err(97),
        0 => Ok(buffer.into()),
        _ if buffer != pattern(len) => Err(99),
        number => Err(number),
    }
}

impl Tally {
    fn try_call(&mut self, call: &Call, number: Option<usize>) {
        let expected = expected(call);
        let said = answer(call);
        let refusal = *expected.right.as_ref().err().unwrap_or(&0);
        self.calls[call.flavour] += 1;
        self.refused[call.flavour] += usize::from(refusal > 0);
        self.answers[refusal as usize] += 1;
        if call.flavour == PLANNED && refusal == 0 {
            self.methods[usize::from(call.sheet[4])] += 1;
        }
        if refusal == 4 {
            self.lengths[call.wrong_lengths()] += 1;
        }
        for (kind, _, count) in &mut self.kinds {
            *count += usize::from(expected.seen.has(*kind));
        }
        if let Some(what) = expected.fault(call, &said) {
            self.differences[call.flavour] += 1;
            if self.differences.iter().sum::<usize>() <= SHOWN {
                println!("difference: {what}; {}", about(call, self.seed, number));
                println!("{}", decoded(&call.sheet, "Rust", &expected.right));
                println!("{}", decoded(&call.sheet, "limiter", &said));
            }
        }
    }

    fn print(&self) {
        println!("  {:42} {:>9} {:>9} {:>12}", "flavour", "calls", "refused", "differences");
        for (flavour, (name, _)) in FLAVOURS.iter().enumerate() {
            let (calls, refused) = (self.calls[flavour], self.refused[flavour]);
            println!("  {name:42} {calls:>9} {refused:>9} {:>12}", self.differences[flavour]);
        }
        for (number, times) in self.answers.iter().enumerate() {
            println!("  {:42} {times:>9}", format!("answer {number}"));
        }
        println!("  the Rust's plans of methods 0 to 4: {:?}", self.methods);
        println!("  wrong lengths, sheet 1, plan in 2, plan out 4: {:?}", self.lengths);
        for (_, kind, times) in &self.kinds {
            println!("  {kind:42} {times:>9}");
        }
    }

    fn missing(&self) -> bool {
        self.calls.contains(&0)
            || self.refused[..PLANNED].contains(&0)
            || self.answers.contains(&0)
            || self.methods.contains(&0)
            || self.lengths[1..].contains(&0)
            || self.kinds.iter().any(|(.., times)| *times == 0)
    }
}

pub fn about(call: &Call, seed: u64, number: Option<usize>) -> String {
    let Call { flavour, sheet, plan_in, greatest, plan_out_len } = call;
    let which = number.map_or("a tiny plan".into(), |number| format!("call {number}"));
    format!(
        "seed {seed}, {which}, flavour {}, greatest {greatest}, plan out of {plan_out_len} bytes, \
         sheet {}, plan in {}",
        FLAVOURS[*flavour].0,
        hexadecimal(sheet),
        hexadecimal(plan_in)
    )
}

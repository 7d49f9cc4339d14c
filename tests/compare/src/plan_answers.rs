//! Streams of calls that ask something of a plan as it stands: the planner's answers against those of this
//! harness's own, bytes to bytes, and the right ones against wrong readings, each of which has to be told
//! from them.

use std::process::ExitCode;

use u_routing::models::Route;

use crate::flavours::Drawn;
use crate::limits::lent;
use crate::plan::plan_len;
use crate::plan_calls::{call, Asked, Call, Makers, FLAVOURS, PLANNED, TINY};
use crate::plans::{answer as planned, decoded, hexadecimal};
use crate::sheet::Header;
use crate::tiny_plans::{each_tiny, each_tiny_at_home};
use crate::walked::Walked;
use crate::{limit_calls, limits, plan_refusals, walked_kinds};

/// Differences shown whole.
const SHOWN: usize = 3;
/// In a run of so many calls every flavour, every answer and every kind has to occur.
const MANY: usize = 100_000;

/// What is asked, with all that an answer is judged by.
pub trait Answered: Asked {
    /// The stream's.
    const NAME: &'static str;
    /// What is asked of the tiny plans.
    const TINY: &'static [Self];
    type Wrong: Copy;
    const WRONG: &'static [(Self::Wrong, &'static str)];

    /// The planner's answer.
    fn ask(self, sheet: &[u8], plan: &[u8], buffer: &mut [u8]) -> u32;
    /// The right bytes.
    fn bytes(self, routes: &[Route]) -> Vec<u8>;
    /// The answer by a wrong reading.
    fn misread(call: &Call<Self>, right: &Right, wrong: Self::Wrong) -> Answer;
    /// What an answer, which has the right length, does not keep of what is promised.
    fn broken(self, _routes: &[Route], _said: &[u8]) -> Option<&'static str> {
        None
    }
    /// The kinds of answers and of refusals that are its own, and those that a call is of.
    fn kinds() -> Vec<&'static str>;
    fn met(call: &Call<Self>, right: &Right) -> Vec<&'static str>;
    /// What a byte of the answer is of.
    fn part(at: usize, len: usize) -> String;
    /// What is asked, in numbers.
    fn numbers(self) -> Vec<u32>;
    /// An answer, for people.
    fn shown(answer: &[u8]) -> String;
}

/// The rounds that an answer is made of, or a refusal.
pub type Right = Result<Walked, u32>;
/// Bytes, or a refusal.
pub type Answer = Result<Vec<u8>, u32>;

/// The planner's own plans.
const OWN: Makers = Makers {
    plan: |sheet| {
        let plan_len = plan_len(Header::of(sheet).rows);
        planned(&Drawn { flavour: 0, sheet: sheet.into(), plan_len }).expect("an accepted sheet")
    },
    limit: |sheet, plan_in, greatest| {
        let (sheet, plan_in, plan_out_len) = (sheet.into(), plan_in.into(), plan_in.len());
        let call = limit_calls::Call { flavour: 0, sheet, plan_in, greatest, plan_out_len };
        limits::answer(&call).expect("a lawful plan in")
    },
};

struct Tally {
    seed: u64,
    calls: [usize; FLAVOURS.len()],
    refused: [usize; FLAVOURS.len()],
    differences: [usize; FLAVOURS.len()],
    answers: Vec<(u32, usize)>,
    kinds: Vec<(&'static str, usize)>,
    told: Vec<(&'static str, usize)>,
}

/// `count` calls after those of all tiny plans.
pub fn run<A: Answered>(count: usize, seed: u64) -> ExitCode {
    println!("{}: seed {seed}", A::NAME);
    let zeros = [0; FLAVOURS.len()];
    let answers = (0..=8).chain([10, A::REFUSAL]);
    let mut tally = Tally {
        seed,
        calls: zeros,
        refused: zeros,
        differences: zeros,
        answers: answers.map(|number| (number, 0)).collect(),
        kinds: kinds::<A>().into_iter().map(|kind| (kind, 0)).collect(),
        told: A::WRONG.iter().map(|(_, name)| (*name, 0)).collect(),
    };
    each_tiny(|plan| tally.try_tiny::<A>(plan));
    each_tiny_at_home(|plan| tally.try_tiny::<A>(plan));
    let numbered = |number| call::<A>(seed, number, &OWN);
    (0..count).for_each(|number| tally.try_call(&numbered(number), Some(number)));
    tally.print();
    let missing = count >= MANY && tally.missing();
    if missing {
        println!(
            "  a flavour, an answer or a kind never occurred, or a wrong reading was not told"
        );
    }
    let [calls, differences] =
        [tally.calls, tally.differences].map(|all| all.iter().sum::<usize>());
    println!("{}: {calls} calls, {differences} differences", A::NAME);
    ExitCode::from(u8::from(missing || differences > 0))
}

/// What the right answer is made of.
pub fn expected<A: Asked>(call: &Call<A>) -> Right {
    let accepted = call.asked.accepted(&call.sheet, &call.plan, call.len);
    accepted.map(|(sheet, chains)| Walked::new(sheet, chains))
}

/// Its bytes.
pub fn bytes<A: Answered>(asked: A, right: &Right) -> Answer {
    right.as_ref().map(|walked| asked.bytes(walked.routes())).map_err(|number| *number)
}

pub fn answer<A: Answered>(call: &Call<A>) -> Answer {
    lent(&call.sheet, &call.plan, call.len, |sheet, plan, buffer| {
        call.asked.ask(sheet, plan, buffer)
    })
}

/// Where an answer and the right one part.
pub fn apart<A: Answered>(said: &Answer, right: &Answer) -> Option<String> {
    match (said, right) {
        _ if said == right => None,
        (Ok(said), Ok(right)) if said.len() == right.len() => {
            let at = said.iter().zip(right).position(|(one, other)| one != other).unwrap_or(0);
            Some(format!("another {}", A::part(at, right.len())))
        }
        _ => Some("another answer".into()),
    }
}

/// The promise that a right answer does not keep.
fn broken<A: Answered>(call: &Call<A>, said: &Answer, right: &Right) -> Option<String> {
    let (said, walked) = (said.as_ref().ok()?, right.as_ref().ok()?);
    call.asked.broken(walked.routes(), said).map(|what| format!("broken: {what}"))
}

pub fn kinds<A: Answered>() -> Vec<&'static str> {
    let mut kinds = A::kinds();
    kinds.extend(walked_kinds::kinds());
    kinds.extend(plan_refusals::kinds());
    kinds
}

/// The kinds that a call is of.
pub fn met<A: Answered>(call: &Call<A>, right: &Right) -> Vec<&'static str> {
    let mut met = A::met(call, right);
    met.extend(match right {
        Ok(walked) => walked_kinds::met(&call.plan, walked),
        Err(number) => plan_refusals::met(call, *number),
    });
    met
}

impl Tally {
    /// A tiny plan, once of those with all greatest numbers of rounds.
    fn try_tiny<A: Answered>(&mut self, plan: &limit_calls::Call) {
        for &asked in A::TINY.iter().filter(|_| plan.greatest == 0) {
            let (sheet, plan) = (plan.sheet.clone(), plan.plan_in.clone());
            let len = A::len_for(&plan);
            self.try_call(&Call { flavour: TINY, sheet, plan, asked, len }, None);
        }
    }

    fn try_call<A: Answered>(&mut self, call: &Call<A>, number: Option<usize>) {
        let (said, expected) = (answer(call), expected(call));
        let right = bytes(call.asked, &expected);
        let refusal = *right.as_ref().err().unwrap_or(&0);
        self.calls[call.flavour] += 1;
        self.refused[call.flavour] += usize::from(refusal > 0);
        let answered = self.answers.iter_mut().find(|(answer, _)| *answer == refusal);
        answered.expect("an answer that there is").1 += 1;
        let met = met(call, &expected);
        for (kind, count) in &mut self.kinds {
            *count += usize::from(met.contains(kind));
        }
        for ((_, told), (wrong, _)) in self.told.iter_mut().zip(A::WRONG) {
            *told += usize::from(A::misread(call, &expected, *wrong) != right);
        }
        let apart = apart::<A>(&said, &right).or_else(|| broken(call, &said, &expected));
        if let Some(what) = apart {
            self.differences[call.flavour] += 1;
            if self.differences.iter().sum::<usize>() <= SHOWN {
                show(&what, call, self.seed, number, [&right, &said]);
            }
        }
    }

    fn print(&self) {
        println!("  {:42} {:>9} {:>9} {:>12}", "flavour", "calls", "refused", "differences");
        for (flavour, (name, _)) in FLAVOURS.iter().enumerate() {
            let (calls, refused) = (self.calls[flavour], self.refused[flavour]);
            println!("  {name:42} {calls:>9} {refused:>9} {:>12}", self.differences[flavour]);
        }
        for (number, times) in &self.answers {
            println!("  {:42} {times:>9}", format!("answer {number}"));
        }
        for (kind, times) in &self.kinds {
            println!("  {kind:42} {times:>9}");
        }
        for (name, told) in &self.told {
            println!("  wrong: {name:40} told {told:>9} times");
        }
    }

    fn missing(&self) -> bool {
        self.calls.contains(&0)
            || self.refused[..PLANNED].contains(&0)
            || self.answers.iter().any(|(_, times)| *times == 0)
            || self.kinds.iter().chain(&self.told).any(|(_, times)| *times == 0)
    }
}

/// A difference, with the harness's answer and the planner's.
pub fn show<A: Answered>(
    what: &str,
    call: &Call<A>,
    seed: u64,
    number: Option<usize>,
    answers: [&Answer; 2],
) {
    let Call { flavour, sheet, plan, asked, len } = call;
    let which = number.map_or("a tiny plan".into(), |number| format!("call {number}"));
    println!(
        "difference: {what}; seed {seed}, {which}, flavour {}, asked {:?}, a buffer of {len} bytes, \
         sheet {}, plan {}",
        FLAVOURS[*flavour].0,
        asked.numbers(),
        hexadecimal(sheet),
        hexadecimal(plan)
    );
    for (who, answer) in ["harness", "planner"].into_iter().zip(answers) {
        match answer {
            Ok(bytes) => println!("{who}: {}", A::shown(bytes)),
            Err(_) => println!("{}", decoded(sheet, who, answer)),
        }
    }
}

//! `compare plans`: the planner's plans against the Rust's with reasons of this harness's, bytes to
//! bytes, and each plan against document 01's "A lawful round".

use std::cell::Cell;
use std::process::ExitCode;

use crate::angles::{misorders, swept};
use crate::flavours::{drawn, share, Drawn, FLAVOURS};
use crate::kinds::{kinds, solved, Seen};
use crate::lawful::Claims;
use crate::lawful_reasons::judge_plan;
use crate::listing::lines;
use crate::plan::{reason_place, reasons};
use crate::planner;
use crate::reasoning::reasoned;
use crate::reference::Problem;
use crate::refusal::{accepted, can_occur, OFFERED};
use crate::sheet::{Sheet, SWEEP};

/// Differences shown whole.
const SHOWN: usize = 3;
/// In a run of so many sheets every flavour and every kind has to occur.
const MANY: usize = 100_000;
/// Sheets up to this length are shown by their bytes.
const MOST_SHOWN: usize = 4000;

/// A plan buffer before the call.
pub fn pattern(len: usize) -> Box<[u8]> {
    (0..len).map(|k| (k as u8).wrapping_mul(37) ^ 0xa5).collect()
}

#[derive(Default)]
struct Tally {
    seed: u64,
    sheets: [usize; FLAVOURS.len()],
    differences: [usize; FLAVOURS.len()],
    methods: [usize; 5],
    answers: [usize; 9],
    /// By kind, those that no method offered has to meet left out.
    kinds: Vec<(usize, &'static str, usize)>,
    explained: usize,
    claims: Claims,
}

pub fn run(count: usize, seed: u64) -> ExitCode {
    println!("plans: seed {seed}");
    let kinds = kinds(OFFERED).map(|(kind, name)| (kind, name, 0)).collect();
    let mut tally = Tally { seed, kinds, ..Tally::default() };
    (0..count).for_each(|number| tally.try_sheet(number));
    tally.print();
    let missing = count >= MANY && tally.missing();
    if missing {
        println!("  a flavour, a kind or an answer never occurred, so nothing is shown of it");
    }
    let differences: usize = tally.differences.iter().sum();
    println!("plans: {count} sheets, {differences} differences");
    ExitCode::from(u8::from(missing || differences > 0))
}

/// One sheet again, both answers shown.
pub fn show(number: usize, seed: u64) -> ExitCode {
    let drawn = drawn(OFFERED, seed, number);
    let expected = expected(&drawn);
    let said = answer(&drawn);
    println!("{}", about(&drawn, seed, number));
    println!("{}", decoded(&drawn.sheet, "Rust", &expected.right));
    println!("{}", decoded(&drawn.sheet, "planner", &said));
    ExitCode::from(u8::from(expected.verdict(&said).is_err()))
}

/// The Rust's answer, what it has met, and what is wrong with that.
pub struct Expected {
    pub right: Result<Vec<u8>, u32>,
    /// A sweep's plan in the exact order of directions, where the Rust's is another.
    pub exact: Option<Exact>,
    pub seen: Seen,
    pub lost: Option<&'static str>,
}

pub struct Exact {
    pub plan: Vec<u8>,
    /// Whether the Rust's rounded angles misorder two stops, by whole numbers.
    pub misordered: bool,
}

pub fn expected(drawn: &Drawn) -> Expected {
    match accepted(OFFERED, &drawn.sheet, &[drawn.plan_len]) {
        Err(number) => {
            Expected { right: Err(number), exact: None, seen: Seen::default(), lost: None }
        }
        Ok(sheet) => {
            let problem = Problem::taken(&sheet);
            let (solution, seen, lost) = solved(&problem);
            let right = reasoned(&sheet, &solution);
            let exact = exact(&sheet, &problem).filter(|exact| exact.plan != right);
            Expected { right: Ok(right), exact, seen, lost }
        }
    }
}

/// A sweep's plan in the exact order of directions, of a sheet of that method.
pub fn exact(sheet: &Sheet, problem: &Problem) -> Option<Exact> {
    if problem.method != SWEEP {
        return None;
    }
    let solution = problem.solution_by(swept);
    let misordered = Cell::new(false);
    problem.solution_by(|table| {
        misordered.set(misordered.get() || misorders(table));
        table.solution()
    });
    Some(Exact { plan: reasoned(sheet, &solution), misordered: misordered.get() })
}

impl Expected {
    /// Whether an answer is the Rust's; true if it is not, and that is explained: two stops of a
    /// sweep lie otherwise than the Rust's rounded angles say, and the answer is in their order.
    pub fn verdict(&self, said: &Result<Vec<u8>, u32>) -> Result<bool, String> {
        match (&self.exact, said) {
            (None, _) => apart(said, &self.right).map_or(Ok(false), Err),
            (Some(exact), _) if !exact.misordered => Err("another order of directions".into()),
            (Some(exact), Ok(plan)) if *plan == exact.plan => Ok(true),
            _ => Err("not in the exact order of directions".into()),
        }
    }
}

/// The planner's, where a refused call leaves the buffer as it was; an answer that does not is 99.
pub fn answer(drawn: &Drawn) -> Result<Vec<u8>, u32> {
    let lent: Box<[u8]> = drawn.sheet[..].into();
    let mut plan = pattern(drawn.plan_len);
    match planner::plan(&lent, &mut plan) {
        _ if lent[..] != drawn.sheet[..] => Err(98),
        0 => Ok(plan.into()),
        _ if plan != pattern(drawn.plan_len) => Err(99),
        number => Err(number),
    }
}

impl Tally {
    fn try_sheet(&mut self, number: usize) {
        let drawn = drawn(OFFERED, self.seed, number);
        let expected = expected(&drawn);
        let said = answer(&drawn);
        let right = &expected.right;
        self.sheets[drawn.flavour] += 1;
        self.answers[right.as_ref().err().copied().unwrap_or(0) as usize] += 1;
        if right.is_ok() {
            self.methods[usize::from(drawn.sheet[4])] += 1;
        }
        for (kind, _, count) in &mut self.kinds {
            *count += usize::from(expected.seen.has(*kind));
        }
        let broken = said.as_ref().ok().and_then(|plan| match right {
            Ok(_) => judge_plan(&drawn.sheet, plan, &mut self.claims).err(),
            Err(_) => None,
        });
        let verdict = expected.verdict(&said);
        self.explained += usize::from(verdict == Ok(true));
        let lost = expected.lost.map(String::from);
        if let Some(what) = verdict.err().or(lost).or(broken) {
            self.differ(&drawn, number, &what, [right, &said]);
        }
    }

    fn differ(
        &mut self,
        drawn: &Drawn,
        number: usize,
        what: &str,
        [right, said]: [&Result<Vec<u8>, u32>; 2],
    ) {
        self.differences[drawn.flavour] += 1;
        if self.differences.iter().sum::<usize>() <= SHOWN {
            println!("difference: {what}; {}", about(drawn, self.seed, number));
            println!("{}", decoded(&drawn.sheet, "Rust", right));
            println!("{}", decoded(&drawn.sheet, "planner", said));
        }
    }

    fn print(&self) {
        println!("  {:40} {:>9} {:>12}", "flavour", "sheets", "differences");
        for (flavour, name) in FLAVOURS.iter().enumerate() {
            if share(OFFERED, flavour) > 0 {
                let (sheets, differences) = (self.sheets[flavour], self.differences[flavour]);
                println!("  {name:40} {sheets:>9} {differences:>12}");
            }
        }
        for (number, times) in self.answers.iter().enumerate() {
            println!("  {:40} {times:>9}", format!("answer {number}"));
        }
        for &method in OFFERED {
            let times = self.methods[usize::from(method)];
            println!("  {:40} {times:>9}", format!("plans of method {method}"));
        }
        for (_, kind, times) in &self.kinds {
            println!("  {kind:40} {times:>9}");
        }
        if OFFERED.contains(&SWEEP) {
            println!("  {:40} {:>9}", "differences that rounded angles explain", self.explained);
        }
        self.claims.print();
    }

    fn missing(&self) -> bool {
        let answers = (0..9).any(|number| self.answers[number] == 0 && can_occur(number));
        let methods = |&method: &u8| self.methods[usize::from(method)] == 0;
        let flavour = |flavour| self.sheets[flavour] == 0 && share(OFFERED, flavour) > 0;
        (0..FLAVOURS.len()).any(flavour)
            || self.kinds.iter().any(|(.., times)| *times == 0)
            || answers
            || OFFERED.iter().any(methods)
            || self.claims.missing(OFFERED)
    }
}

/// Where two answers part.
pub fn apart(said: &Result<Vec<u8>, u32>, right: &Result<Vec<u8>, u32>) -> Option<String> {
    match (said, right) {
        _ if said == right => None,
        (Ok(said), Ok(right)) => {
            let at = said.iter().zip(right).position(|(one, other)| one != other);
            let at = at.unwrap_or(right.len());
            Some(match reason_place(right, at) {
                Some(stop) => format!("another reason of stop {stop}"),
                None => format!("another plan, from byte {at} on"),
            })
        }
        _ => Some("another answer".into()),
    }
}

pub fn about(drawn: &Drawn, seed: u64, number: usize) -> String {
    let Drawn { flavour, sheet, plan_len } = drawn;
    let method = sheet.get(4).map_or("none".into(), |method| method.to_string());
    format!(
        "seed {seed}, sheet {number}, flavour {}, method {method}, plan of {plan_len} bytes, \
         sheet {}",
        FLAVOURS[*flavour],
        hexadecimal(sheet)
    )
}

/// Bytes as they are shown, long ones cut.
pub fn hexadecimal(bytes: &[u8]) -> String {
    let hex = bytes.iter().take(MOST_SHOWN).map(|byte| format!("{byte:02x}"));
    hex.chain((bytes.len() > MOST_SHOWN).then(|| "..".into())).collect()
}

/// An answer as the listing shows it, the cost, and the reasons.
pub fn decoded(sheet: &[u8], who: &str, answer: &Result<Vec<u8>, u32>) -> String {
    match answer {
        Err(97) => format!("{who}: the plan that was given was changed"),
        Err(98) => format!("{who}: the sheet was changed"),
        Err(99) => format!("{who}: refused, but the buffer was changed"),
        Err(number) => format!("{who}: refused {number}"),
        Ok(plan) => {
            let read = accepted(OFFERED, sheet, &[plan.len()]).ok();
            let text = read.and_then(|sheet: Sheet| lines(plan, &sheet));
            let text = text.unwrap_or_else(|| "no plan of this sheet\n".into());
            let reasons = reasons(plan);
            let cost = plan.get(8..16).map_or(&[][..], |cost| cost);
            let cost: String = cost.iter().rev().map(|byte| format!("{byte:02X}")).collect();
            format!("{who}: cost {cost}, reasons by row {reasons:?}\n{}", text.trim_end())
        }
    }
}

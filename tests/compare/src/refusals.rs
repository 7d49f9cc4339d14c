//! `compare refusals`: the planner's check against this harness's, and every accepted sheet
//! against the Rust.

use std::panic::{catch_unwind, AssertUnwindSafe};
use std::process::ExitCode;

use crate::damage::Case;
use crate::plan::{chains, encode};
use crate::planner;
use crate::reference::Problem;
use crate::refusal::{accepted, can_occur, OFFERED};
use crate::sheet::Sheet;
use crate::stream::Stream;

/// Accepted sheets up to `QUICK` rows are all planned, longer ones one in `FEW`.
const QUICK: usize = 12;
const FEW: usize = 8;

/// Differences shown whole.
const SHOWN: usize = 3;

#[derive(Default)]
struct Tally {
    sheets: usize,
    answers: [usize; 9],
    taken: usize,
    planned: usize,
    differences: usize,
}

pub fn run(count: usize, seed: u64) -> ExitCode {
    println!("refusals: seed {seed}");
    let mut tally = Tally::default();
    for case in Stream::new(seed).take(count) {
        tally.judge(&case);
    }
    for (number, times) in tally.answers.iter().enumerate() {
        println!("  answer {number}: {times} sheets");
    }
    println!("  through the Rust: {} taken, {} planned", tally.taken, tally.planned);
    let missing = (0..9).any(|number| tally.answers[number] == 0 && can_occur(number));
    if missing {
        println!("  an answer never occurred, so nothing is shown of it");
    }
    println!("refusals: {} sheets, {} differences", tally.sheets, tally.differences);
    ExitCode::from(u8::from(missing || tally.differences > 0))
}

impl Tally {
    fn judge(&mut self, case: &Case) {
        let answer = planner::check(&case.sheet, case.plan_len);
        let expected = accepted(OFFERED, &case.sheet, &[case.plan_len]);
        let number = expected.as_ref().err().copied().unwrap_or(0);
        self.sheets += 1;
        self.answers[number as usize] += 1;
        if answer != number {
            self.differ(case, &format!("planner {answer}, harness {number}"));
        }
        if let Ok(sheet) = expected {
            if let Err(what) = self.try_rust(&sheet) {
                self.differ(case, what);
            }
        }
    }

    /// The Rust takes every accepted sheet, and plans it with each stop standing once.
    fn try_rust(&mut self, sheet: &Sheet) -> Result<(), &'static str> {
        let problem = Problem::of(sheet).ok_or("accepted, but the Rust does not take it")?;
        self.taken += 1;
        if sheet.rows.len() > QUICK && !self.taken.is_multiple_of(FEW) {
            return Ok(());
        }
        self.planned += 1;
        let solution = catch_unwind(AssertUnwindSafe(|| problem.solution()));
        let plan =
            encode(sheet.rows.len(), &solution.map_err(|_| "accepted, but the Rust panics")?);
        let chains = chains(&plan, sheet).ok_or("the Rust's plan has a stop not once")?;
        let empty = chains.rounds.iter().any(|(_, stops)| stops.is_empty());
        if empty {
            Err("the Rust's plan has an empty round")
        } else {
            Ok(())
        }
    }

    fn differ(&mut self, case: &Case, what: &str) {
        self.differences += 1;
        if self.differences <= SHOWN {
            let hex: String = case.sheet.iter().map(|byte| format!("{byte:02x}")).collect();
            println!("difference: {what}; plan of {} bytes, sheet {hex}", case.plan_len);
        }
    }
}

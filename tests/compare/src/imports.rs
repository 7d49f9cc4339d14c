//! `compare imports`: the importer's sheets against those of this harness's own, bytes to bytes, and
//! each sheet taken by the planner's check and planned as the Rust plans it.

use std::process::ExitCode;

use crate::import_calls::{call, kinds, Call};
use crate::import_fixed::{each_giant, each_tiny};
use crate::importer::imported;
use crate::plan::plan_len;
use crate::planner;
use crate::plans::pattern;
use crate::reference::plan;
use crate::refusal::OFFERED;
use crate::sheet::Header;

/// Sheets up to `QUICK` rows are all planned, longer ones one in `FEW`.
const QUICK: usize = 5;
const FEW: usize = 8;
/// Differences shown, and the most of their text.
const SHOWN: usize = 3;
const MOST_SHOWN: usize = 4000;
/// In a run of so many texts every kind has to occur.
const MANY: usize = 100_000;
const ANSWERS: [u32; 6] = [0, 4, 5, 7, 11, 12];

struct Tally {
    texts: usize,
    answers: [usize; ANSWERS.len()],
    kinds: Vec<(&'static str, usize)>,
    long: usize,
    planned: usize,
    differences: usize,
}

/// `count` texts after those that are always tried.
pub fn run(count: usize, seed: u64) -> ExitCode {
    println!("imports: seed {seed}");
    let mut tally = Tally {
        texts: 0,
        answers: [0; ANSWERS.len()],
        kinds: kinds().into_iter().map(|kind| (kind, 0)).collect(),
        long: 0,
        planned: 0,
        differences: 0,
    };
    each_tiny(|call| tally.try_call(call));
    each_giant(|call| tally.try_call(call));
    (0..count).for_each(|number| tally.try_call(&call(seed, number)));
    tally.print();
    let missing = count >= MANY && tally.missing();
    if missing {
        println!("  a kind or an answer never occurred, so nothing is shown of it");
    }
    println!("imports: {} texts, {} differences", tally.texts, tally.differences);
    ExitCode::from(u8::from(missing || tally.differences > 0))
}

/// The importer's number and the whole buffer after it; no number of its where it changes the text.
fn answer(call: &Call) -> (i32, Box<[u8]>) {
    let lent: Box<[u8]> = call.text[..].into();
    let mut sheet = pattern(call.room);
    let number = planner::import(&lent, &mut sheet);
    (if *lent == call.text { number } else { i32::MIN }, sheet)
}

/// What they have to be.
fn expected(right: &Result<Vec<u8>, u32>, room: usize) -> (i32, Box<[u8]>) {
    let mut buffer = pattern(room);
    match right {
        Err(refusal) => (-(*refusal as i32), buffer),
        Ok(sheet) => {
            buffer[..sheet.len()].copy_from_slice(sheet);
            (sheet.len() as i32, buffer)
        }
    }
}

impl Tally {
    fn try_call(&mut self, call: &Call) {
        let right = imported(&call.text, call.room);
        let refusal = right.as_ref().err().copied().unwrap_or(0);
        self.texts += 1;
        let column = ANSWERS.iter().position(|&answer| answer == refusal);
        self.answers[column.expect("an answer of the importer's")] += 1;
        for (kind, count) in &mut self.kinds {
            *count += usize::from(call.met.contains(kind));
        }
        let lost = call.wanted.is_some_and(|wanted| wanted != refusal);
        let fault = if lost {
            Some("the harness does not follow its own text")
        } else {
            apart(&answer(call), &expected(&right, call.room))
        };
        let unplanned = || right.as_ref().ok().and_then(|sheet| self.unplanned(sheet));
        if let Some(what) = fault.or_else(unplanned) {
            self.differ(call, refusal, what);
        }
    }

    /// What is wrong with a sheet as one that is planned.
    fn unplanned(&mut self, sheet: &[u8]) -> Option<&'static str> {
        let rows = Header::of(sheet).rows;
        if planner::check(sheet, plan_len(rows)) != 0 {
            return Some("the planner does not take the sheet");
        }
        self.long += usize::from(rows > QUICK);
        if rows > QUICK && !self.long.is_multiple_of(FEW) {
            return None;
        }
        self.planned += 1;
        let mut made = pattern(plan_len(rows));
        let number = planner::plan(sheet, &mut made);
        let same = number == 0 && plan(OFFERED, sheet).is_ok_and(|right| right == *made);
        (!same).then_some("another plan of the sheet than the Rust's")
    }

    fn differ(&mut self, call: &Call, refusal: u32, what: &str) {
        self.differences += 1;
        if self.differences <= SHOWN {
            let Call { text, room, met, wanted } = call;
            let text = text[..text.len().min(MOST_SHOWN)].escape_ascii();
            println!("difference: {what}; harness {refusal}, wanted {wanted:?}, {met:?}");
            println!("  importer {}, buffer of {room} bytes, text {text}", answer(call).0);
        }
    }

    fn print(&self) {
        for (answer, times) in ANSWERS.iter().zip(self.answers) {
            println!("  {:42} {times:>9}", format!("answer {answer}"));
        }
        println!("  {:42} {:>9}", "planned as the Rust does", self.planned);
        for (kind, times) in &self.kinds {
            println!("  {kind:42} {times:>9}");
        }
    }

    fn missing(&self) -> bool {
        self.answers.contains(&0) || self.kinds.iter().any(|(_, times)| *times == 0)
    }
}

/// Where an answer and the right one part.
fn apart(said: &(i32, Box<[u8]>), right: &(i32, Box<[u8]>)) -> Option<&'static str> {
    match right {
        _ if said == right => None,
        (number, _) if said.0 != *number => Some("another answer"),
        (..0, _) => Some("refused, but the buffer was changed"),
        _ => Some("another sheet, or later bytes changed"),
    }
}

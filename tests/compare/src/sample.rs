//! A sample of calls to keep, with their answers, in which everything that has to be met is.

use crate::freeze::Kept;
use crate::refusal::can_occur;

/// No buffer, no sheet and no text of a sample has more bytes.
pub const MOST_LENT: usize = 8192;

/// What a sample holds: each of these answers and every kind of boundary so often, and in all so many
/// calls at least.
pub struct Wanted {
    pub answers: &'static [usize],
    pub often: usize,
    pub count: usize,
}

pub struct Sample {
    kept: Vec<Kept>,
    often: usize,
    /// Each answer with the number of its records.
    answers: Vec<(usize, usize)>,
    /// Each kind of boundary with the number of its records.
    kinds: Vec<(usize, usize)>,
}

impl Sample {
    /// The calls that are kept out of all, each `consider`ed by its number.
    pub fn kept(
        kinds: impl Iterator<Item = usize>,
        Wanted { answers, often, count }: Wanted,
        consider: impl Fn(&mut Sample, usize),
    ) -> Vec<Kept> {
        let kinds = kinds.map(|kind| (kind, 0)).collect();
        let answers = answers.iter().filter(|&&number| can_occur(number));
        let answers = answers.map(|&number| (number, 0)).collect();
        let mut sample = Sample { kept: vec![], often, answers, kinds };
        for number in 0.. {
            if sample.whole() && sample.kept.len() >= count {
                break;
            }
            consider(&mut sample, number);
        }
        let least = sample.kinds.iter().map(|(_, met)| met).min().expect("there are kinds");
        println!("freeze: each of {} kinds in {least} records or more", sample.kinds.len());
        sample.kept
    }

    /// Whether all is met that has to be.
    fn whole(&self) -> bool {
        self.answers.iter().chain(&self.kinds).all(|&(_, met)| met >= self.often)
    }

    /// Takes a call that shows something new, and any where nothing is lacking.
    pub fn offer(
        &mut self,
        right: &Result<Vec<u8>, u32>,
        seen: impl Fn(usize) -> bool,
        asked: Vec<u8>,
    ) {
        let number = *right.as_ref().err().unwrap_or(&0) as usize;
        let is_new = |shown: bool, met: usize| shown && met < self.often;
        let new = self.answers.iter().any(|&(answer, met)| is_new(answer == number, met))
            || self.kinds.iter().any(|&(kind, met)| is_new(seen(kind), met));
        if new || self.whole() {
            self.answers.iter_mut().for_each(|(of, met)| *met += usize::from(*of == number));
            self.kinds.iter_mut().for_each(|(kind, met)| *met += usize::from(seen(*kind)));
            self.kept.push(Kept { number, asked, line: line(right) });
        }
    }
}

fn line(answer: &Result<Vec<u8>, u32>) -> String {
    match answer {
        Err(number) => format!("refused {number}\n"),
        Ok(plan) => plan.iter().map(|byte| format!("{byte:02x}")).chain(["\n".into()]).collect(),
    }
}

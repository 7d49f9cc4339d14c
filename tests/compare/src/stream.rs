//! The endless row of calls that the refusals are compared on.

use std::collections::VecDeque;

use crate::damage::{noise, noise_after_header, Base, Case, Values};
use crate::generate::{mark_rests, random_sheet, tiny};
use crate::random::Random;
use crate::refusal::refusal;

/// Sheets up to this length may get every damage there is, one in `FULL` of them.
const SMALL: usize = 400;
const FULL: usize = 16;
/// The damages that every sheet gets.
const DAMAGES: usize = 80;
/// Random bytes are tried at every length below this, again and again.
const MOST_NOISE: usize = 600;

pub struct Stream {
    random: Random,
    values: Values,
    waiting: VecDeque<Case>,
    noise_len: usize,
}

impl Stream {
    /// All tiny sheets come first.
    pub fn new(seed: u64) -> Stream {
        Stream {
            random: Random::new(seed),
            values: Values::all_marks(),
            waiting: tiny().iter().map(|sheet| Base::new(sheet).case).collect(),
            noise_len: 0,
        }
    }

    /// Another random sheet, its damages unless it is too long to be read, and some noise.
    fn refill(&mut self) {
        let random = &mut self.random;
        let mut sheet = random_sheet(random);
        if random.one_in(2) {
            mark_rests(&mut sheet, random);
        }
        let base = Base::new(&sheet);
        self.waiting.push_back(base.case.clone());
        if refusal(&base.case.sheet, base.case.plan_len) != 2 {
            if base.case.sheet.len() <= SMALL && random.one_in(FULL) {
                self.waiting.extend(base.all_damages(&self.values));
            }
            let damaged = |_| base.damaged(&self.values, random);
            self.waiting.extend((0..DAMAGES).map(damaged));
        }
        self.waiting.push_back(noise(self.noise_len, random));
        self.waiting.push_back(noise_after_header(random));
        self.noise_len = (self.noise_len + 1) % MOST_NOISE;
    }
}

impl Iterator for Stream {
    type Item = Case;

    fn next(&mut self) -> Option<Case> {
        if self.waiting.is_empty() {
            self.refill();
        }
        self.waiting.pop_front()
    }
}

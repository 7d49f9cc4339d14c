//! Plans in to start from in the search for a slow call of the limiter: long rounds, and many.

use crate::plan::Chains;
use crate::random::Random;
use crate::sheet::{Sheet, NEAREST};
use crate::slow_starts::start;

/// What the limiter is asked for a sheet.
#[derive(Clone)]
pub struct Limit {
    pub chains: Chains,
    pub greatest: u32,
}

impl Limit {
    /// A sheet of one depot, and all its stops on rounds of a length.
    pub fn start(random: &mut Random) -> (Sheet, Limit) {
        let sheet = loop {
            let sheet = start(NEAREST, random);
            if sheet.depots() == 1 {
                break sheet;
            }
        };
        let mut stops: Vec<usize> = (1..sheet.rows.len()).collect();
        (1..stops.len()).for_each(|k| stops.swap(k, random.below(k + 1)));
        let each = random.pick(&[1, 2, 10, 25, 50, stops.len() - 1]);
        let vehicle = |random: &mut Random| sheet.vehicles[random.below(sheet.vehicles.len())].id;
        let rounds = stops.chunks(each).map(|stops| (vehicle(random), stops.to_vec())).collect();
        let greatest = random.pick(&[1, 1, 1, 2, 16]);
        (sheet, Limit { chains: Chains { rounds, aside: vec![] }, greatest })
    }

    /// One change: a stop to another place, two rounds' ends exchanged, another vehicle, or another
    /// greatest number.
    pub fn vary(&mut self, sheet: &Sheet, random: &mut Random) {
        let rounds = &mut self.chains.rounds;
        let (from, to) = (random.below(rounds.len()), random.below(rounds.len()));
        match random.below(8) {
            0 => self.greatest = 1 + random.below(rounds.len()) as u32,
            1 => rounds[to].0 = sheet.vehicles[random.below(sheet.vehicles.len())].id,
            2 => {
                let (cut, other) = (rounds[from].1.len() / 2, rounds[to].1.len() / 2);
                if from != to {
                    let (tail, end) =
                        (rounds[from].1.split_off(cut), rounds[to].1.split_off(other));
                    rounds[from].1.extend(end);
                    rounds[to].1.extend(tail);
                }
            }
            _ if rounds[from].1.is_empty() => {}
            _ => {
                let taken = random.below(rounds[from].1.len());
                let stop = rounds[from].1.remove(taken);
                let at = random.below(rounds[to].1.len() + 1);
                rounds[to].1.insert(at, stop);
            }
        }
    }

    pub fn told(&self) -> String {
        format!("limiter, {} rounds to {}", self.chains.rounds.len(), self.greatest)
    }
}

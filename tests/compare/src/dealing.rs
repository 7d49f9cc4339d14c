//! The harness's own deal (document 02, request Seven), of whole durations of the Rust's rounds, and what
//! every deal has to keep. Rounds and crews wait in heaps, of which the first is taken: no one sorts, and
//! no one searches.

use std::cmp::Reverse;
use std::collections::BinaryHeap;

use u_routing::models::Route;

use crate::walked::begun;

pub const MOST_CREWS: u32 = 8;

/// A number of crews.
#[derive(Clone, Copy, Debug, PartialEq)]
pub struct Crews(pub u32);

impl Crews {
    /// The crew of each round, from 1.
    pub fn deal(self, wholes: &[u64]) -> Vec<u8> {
        let mut deal = vec![0; wholes.len()];
        self.turns(wholes).into_iter().for_each(|(round, crew)| deal[round] = crew as u8);
        deal
    }

    /// Which round goes to which crew, in the order in which they are dealt.
    pub fn turns(self, wholes: &[u64]) -> Vec<(usize, usize)> {
        let rounds = wholes.iter().enumerate();
        let mut rounds: BinaryHeap<(u64, Reverse<usize>)> =
            rounds.map(|(round, &whole)| (whole, Reverse(round))).collect();
        let mut crews: BinaryHeap<Reverse<(u64, usize)>> =
            (1..=self.0 as usize).map(|crew| Reverse((0, crew))).collect();
        let mut turns = Vec::new();
        while let Some((whole, Reverse(round))) = rounds.pop() {
            let Reverse((total, crew)) = crews.pop().expect("there is a crew");
            crews.push(Reverse((total + whole, crew)));
            turns.push((round, crew));
        }
        turns
    }

    /// What each crew has of a deal whose rounds all have one, crew 1 first.
    pub fn totals(self, wholes: &[u64], deal: &[u8]) -> Vec<u64> {
        self.of_crews(wholes, deal).map(|rounds| rounds.iter().sum()).collect()
    }

    /// The durations of each crew's rounds.
    pub fn of_crews<'a>(
        self,
        wholes: &'a [u64],
        deal: &'a [u8],
    ) -> impl Iterator<Item = Vec<u64>> + 'a {
        (1..=self.0).map(move |crew| {
            let own = wholes.iter().zip(deal).filter(move |(_, of)| u32::from(**of) == crew);
            own.map(|(whole, _)| *whole).collect()
        })
    }

    /// What a deal does not keep of the two promises, or of one crew a round.
    pub fn unkept(self, wholes: &[u64], deal: &[u8]) -> Option<&'static str> {
        if !deal.iter().all(|&crew| (1..=self.0).contains(&crew.into())) {
            return Some("a round of no crew");
        }
        let totals = self.totals(wholes, deal);
        let over = |(total, own): (&u64, Vec<u64>)| {
            let shortest = own.iter().min().copied().unwrap_or(0);
            totals.iter().any(|other| *total > other + shortest)
        };
        if totals.iter().zip(self.of_crews(wholes, deal)).any(over) {
            return Some("a crew's total above another's by more than its shortest round");
        }
        let (largest, bound) = self.bound(wholes, deal);
        (largest > bound).then_some("the largest total above its bound")
    }

    /// The largest total times the crews, and what that is at most.
    pub fn bound(self, wholes: &[u64], deal: &[u8]) -> (u128, u128) {
        let totals = self.totals(wholes, deal);
        let most = |all: &[u64]| u128::from(all.iter().max().copied().unwrap_or(0));
        let (crews, sum) = (u128::from(self.0), u128::from(totals.iter().sum::<u64>()));
        (most(&totals) * crews, sum + most(wholes) * (crews - 1))
    }
}

/// The durations of rounds in whole units, rounded up.
pub fn wholes(routes: &[Route]) -> Vec<u64> {
    routes.iter().map(|route| begun(1, route.total_duration())).collect()
}

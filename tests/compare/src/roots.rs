//! `compare roots`: the square root that the importer's distances are made of against the
//! processor's, bit by bit, on whole squared distances.

use std::process::ExitCode;

use crate::planner::probe_root;
use crate::random::Random;
use crate::refusal::MOST_COORDINATE;

/// The longest way along an axis, and the greatest squared distance: an f64 has it exactly.
const SIDE: usize = 2 * MOST_COORDINATE as usize;
const MOST: u64 = 2 * (SIDE * SIDE) as u64;
/// So many of the least and of the greatest numbers are all tried, and so many beside each power of 2.
const ENDS: u64 = 1_000_000;
const BESIDE: u64 = 1000;
/// Differences shown.
const SHOWN: usize = 3;

const KINDS: [&str; 8] = [
    "the least and the greatest",
    "beside a power of 2",
    "just below the middle of two f64",
    "just above such a middle",
    "a squared distance",
    "any",
    "a square",
    "beside a square",
];
const BELOW: usize = 2;
const DRAWN: usize = 4;
/// How likely each is of those that are drawn.
const SHARES: [usize; KINDS.len() - DRAWN] = [4, 4, 1, 1];

#[derive(Default)]
struct Tally {
    numbers: [usize; KINDS.len()],
    differences: usize,
}

/// `count` numbers after those that are always tried.
pub fn run(count: usize, seed: u64) -> ExitCode {
    println!("roots: seed {seed}");
    let mut random = Random::new(seed);
    let mut tally = Tally::default();
    for number in (0..ENDS).chain(MOST - ENDS + 1..=MOST) {
        tally.try_number(0, number, root(number));
    }
    let powers = (0..=MOST.ilog2()).map(|bit| 1u64 << bit);
    for number in powers.flat_map(|of| of.saturating_sub(BESIDE)..=of + BESIDE) {
        tally.try_number(1, number, root(number));
    }
    for Hard { number, root, above } in hard() {
        tally.try_number(BELOW + usize::from(above), number, root);
    }
    for _ in 0..count {
        let kind = random.by_share(SHARES.into_iter());
        let number = drawn(kind, &mut random);
        tally.try_number(DRAWN + kind, number, root(number));
    }
    for (kind, times) in KINDS.iter().zip(tally.numbers) {
        println!("  {kind:42} {times:>9}");
    }
    let missing = count > 1000 && tally.numbers.contains(&0);
    if missing {
        println!("  a kind never occurred, so nothing is shown of it");
    }
    let numbers: usize = tally.numbers.iter().sum();
    println!("roots: {numbers} numbers, {} differences", tally.differences);
    ExitCode::from(u8::from(missing || tally.differences > 0))
}

impl Tally {
    fn try_number(&mut self, kind: usize, number: u64, right: f64) {
        self.numbers[kind] += 1;
        let said = probe_root(number);
        if said.to_bits() != right.to_bits() {
            self.differences += 1;
            if self.differences <= SHOWN {
                println!("difference: {number}, {}: {said:e}, not {right:e}", KINDS[kind]);
            }
        }
    }
}

/// The processor's root, which is the nearest.
pub fn root(number: u64) -> f64 {
    (number as f64).sqrt()
}

fn drawn(kind: usize, random: &mut Random) -> u64 {
    let square = |side: usize| (side * side) as u64;
    match kind {
        0 => square(random.below(SIDE + 1)) + square(random.below(SIDE + 1)),
        1 => random.below(MOST as usize + 1) as u64,
        2 => square(random.below(MOST.isqrt() as usize + 1)),
        _ => {
            let near = square(1 + random.below(MOST.isqrt() as usize));
            near + 1 - 2 * random.below(2) as u64
        }
    }
}

/// A number whose root is so near to the middle of two f64 that few bits do not tell its side.
pub struct Hard {
    pub number: u64,
    /// The nearest, by whole numbers alone.
    pub root: f64,
    pub above: bool,
}

/// Those from 2^38 up: a middle is an odd `a` of 54 bits over a power of two, so the square of `a`
/// is nearly a multiple of that power's. Whatever square is a little off a multiple is found by its
/// rest, which has just four roots there.
pub fn hard() -> Vec<Hard> {
    const FARTHEST: i128 = 300_000;
    let mut all = Vec::new();
    for exponent in 19..22 {
        let bits = 2 * (53 - exponent);
        for rest in (-FARTHEST..FARTHEST).map(|step| 8 * step + 1) {
            let one = root_of_rest(rest, bits);
            let modulus = 1i128 << bits;
            let four = [one, -one, one + modulus / 2, modulus / 2 - one];
            let middles = four.map(|of| of.rem_euclid(modulus)).into_iter();
            for middle in middles.filter(|middle| (1 << 53..1 << 54).contains(middle)) {
                let number = ((middle * middle - rest) >> bits) as u64;
                let above = rest < 0;
                let nearest = (middle + if above { 1 } else { -1 }) / 2;
                let root = nearest as f64 / (1u64 << (52 - exponent)) as f64;
                all.extend((number <= MOST).then_some(Hard { number, root, above }));
            }
        }
    }
    all
}

/// A number whose square differs from `rest`, which is 1 more than a multiple of 8, by a multiple of
/// 2^bits: bit after bit.
fn root_of_rest(rest: i128, bits: u32) -> i128 {
    let off = |root: i128, bit: u32| root.wrapping_mul(root).wrapping_sub(rest) >> bit & 1 == 1;
    (3..bits).fold(1, |root, bit| if off(root, bit) { root + (1 << (bit - 1)) } else { root })
}

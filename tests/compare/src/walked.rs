//! The rounds of a plan, walked anew by the Rust as it is (cross.rs): what bills and deals are made of.

use u_routing::models::{Route, Solution};

use crate::cross::Cross;
use crate::plan::Chains;
use crate::sheet::Sheet;

/// A figure of a round by its place: distance, or duration.
pub const DISTANCE: usize = 0;
pub const DURATION: usize = 1;

pub struct Walked {
    pub sheet: Sheet,
    pub chains: Chains,
    solution: Solution,
}

impl Walked {
    pub fn new(sheet: Sheet, chains: Chains) -> Walked {
        let solution = Cross::new(&sheet).solution(&chains);
        Walked { sheet, chains, solution }
    }

    pub fn routes(&self) -> &[Route] {
        self.solution.routes()
    }

    pub fn has_rounds(&self, count: usize) -> bool {
        self.chains.rounds.len() == count
    }

    /// Which rounds are empty.
    pub fn empty(&self) -> Vec<bool> {
        self.chains.rounds.iter().map(|(_, stops)| stops.is_empty()).collect()
    }
}

pub fn figures(route: &Route) -> [f64; 2] {
    [route.total_distance(), route.total_duration()]
}

pub fn rests_at_home(route: &Route) -> bool {
    route.rest().is_some_and(|(at, _)| at == route.len())
}

/// The least whole number that, times the unit, is not below the figure, which is below 2^53.
pub fn begun(unit: u64, figure: f64) -> u64 {
    let (exponent, fraction) = (figure.to_bits() >> 52, figure.to_bits() & ((1 << 52) - 1));
    let mantissa = if exponent == 0 { fraction } else { fraction | 1 << 52 };
    // The figure is the mantissa halved so often; 64 times leave less than any unit.
    let halved = (1075 - exponent.max(1)).min(64);
    u128::from(mantissa).div_ceil(u128::from(unit) << halved) as u64
}

/// A figure beside a multiple of its unit.
#[derive(Clone, Copy, PartialEq)]
pub enum Step {
    Zero,
    AboveZero,
    Below,
    At,
    Above,
}

impl Step {
    pub fn holds(self, figure: f64, unit: u64) -> bool {
        // The remainder of two floats is exact.
        let whole = |figure: f64| figure > 0.0 && figure % unit as f64 == 0.0;
        match self {
            Step::Zero => figure == 0.0,
            Step::AboveZero => figure == 0.0f64.next_up(),
            Step::Below => whole(figure.next_up()),
            Step::At => whole(figure),
            Step::Above => whole(figure.next_down()),
        }
    }
}

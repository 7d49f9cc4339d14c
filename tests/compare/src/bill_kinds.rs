//! What a call for a bill has met that is a bill's own, told from the call and the right answer.

use u_routing::models::Route;

use crate::billing::{units, Tariff, MOST_CENTS, UNITS};
use crate::plan_answers::Right;
use crate::plan_calls::Call;
use crate::plan_refusals::Length;
use crate::walked::{figures, rests_at_home, Step, Walked, DISTANCE, DURATION};

/// A figure of a round, where a unit more or less of it shows in the charge.
const STEPS: [(&str, usize, Step); 10] = [
    ("distance 0", DISTANCE, Step::Zero),
    ("distance one step above 0", DISTANCE, Step::AboveZero),
    ("distance one step below a multiple of 1000", DISTANCE, Step::Below),
    ("distance at a multiple of 1000", DISTANCE, Step::At),
    ("distance one step above a multiple of 1000", DISTANCE, Step::Above),
    ("duration 0", DURATION, Step::Zero),
    ("duration one step above 0", DURATION, Step::AboveZero),
    ("duration one step below a multiple of 900", DURATION, Step::Below),
    ("duration at a multiple of 900", DURATION, Step::At),
    ("duration one step above a multiple of 900", DURATION, Step::Above),
];

/// Amounts at the ends of their range, by their places in a tariff.
const AMOUNTS: [(&str, usize, u32); 9] = [
    ("distance rate 0", 0, 0),
    ("distance rate 1", 0, 1),
    ("distance rate 1,000,000", 0, MOST_CENTS),
    ("duration rate 0", 1, 0),
    ("duration rate 1", 1, 1),
    ("duration rate 1,000,000", 1, MOST_CENTS),
    ("least charge 0", 2, 0),
    ("least charge 1", 2, 1),
    ("least charge 1,000,000", 2, MOST_CENTS),
];

const ROUNDS: &[(&str, fn(&Charged) -> bool)] = &[
    ("least charge above the driven", |it| it.least() > it.driven()),
    ("least charge one cent above", |it| it.least() == it.driven() + 1),
    ("least charge at the driven", |it| it.least() == it.driven() && it.least() > 0),
    ("least charge one cent below", |it| it.least() + 1 == it.driven() && it.least() > 0),
    ("least charge below the driven", |it| it.least() < it.driven() && it.least() > 0),
    ("no figure, and the least charge", |it| figures(it.route) == [0.0; 2] && it.least() > 0),
    ("a charge above 32 bits", |it| it.driven() > u32::MAX.into()),
    ("a rest at home, to a multiple of 900", |it| {
        rests_at_home(it.route) && it.is(DURATION, Step::At)
    }),
    ("a rest at home, to one step above", |it| {
        rests_at_home(it.route) && it.is(DURATION, Step::Above)
    }),
];

const BILLS: &[(&str, fn(&Walked, Tariff) -> bool)] = &[
    ("an empty round, and a least charge", |it, tariff| {
        tariff.least > 0 && it.empty().contains(&true)
    }),
    ("an empty round that is driven", |it, tariff| {
        let is_driven = |route: &Route| route.is_empty() && tariff.driven(units(route)) > 0;
        it.routes().iter().any(is_driven)
    }),
    ("a sum above 32 bits, and no charge", |it, tariff| {
        let (bill, most) = (tariff.bill(it.routes()), u32::MAX.into());
        bill.split_last().is_some_and(|(sum, each)| *sum > most && each.iter().all(|c| *c <= most))
    }),
];

/// Lengths by a whole charge too few or too many.
const LENGTHS: [Length; 2] = [
    ("4, a bill 8 bytes short", |len, right| len + 8 == right),
    ("4, a bill 8 bytes long", |len, right| len == right + 8),
];

/// One amount out of range alone, by its place in a tariff.
const OVER: [(&str, usize, u32); 6] = [
    ("13, distance rate 1,000,001", 0, MOST_CENTS + 1),
    ("13, distance rate 2^32 - 1", 0, u32::MAX),
    ("13, duration rate 1,000,001", 1, MOST_CENTS + 1),
    ("13, duration rate 2^32 - 1", 1, u32::MAX),
    ("13, least charge 1,000,001", 2, MOST_CENTS + 1),
    ("13, least charge 2^32 - 1", 2, u32::MAX),
];
const ALL_OVER: &str = "13, all amounts";

/// A round with stops, and what it is billed by.
struct Charged<'a> {
    route: &'a Route,
    tariff: Tariff,
}

pub fn kinds() -> Vec<&'static str> {
    let mut kinds: Vec<&str> = STEPS.iter().map(|(name, ..)| *name).collect();
    kinds.extend(AMOUNTS.map(|(name, ..)| name));
    kinds.extend(ROUNDS.iter().map(|(name, _)| *name));
    kinds.extend(BILLS.iter().map(|(name, _)| *name));
    kinds.extend(LENGTHS.map(|(name, _)| name));
    kinds.extend(OVER.map(|(name, ..)| name).into_iter().chain([ALL_OVER]));
    kinds
}

/// The kinds that a call is of.
pub fn met(call: &Call<Tariff>, right: &Right) -> Vec<&'static str> {
    match right {
        Ok(walked) => billed(call.asked, walked),
        Err(13) => out_of_range(call.asked.amounts()),
        Err(number) => call.lengths_met(*number, &LENGTHS),
    }
}

fn billed(tariff: Tariff, walked: &Walked) -> Vec<&'static str> {
    let with_stops = walked.routes().iter().filter(|route| !route.is_empty());
    let rounds: Vec<Charged> = with_stops.map(|route| Charged { route, tariff }).collect();
    let steps = STEPS.iter().filter(|(_, k, step)| rounds.iter().any(|it| it.is(*k, *step)));
    let mut met: Vec<&str> = steps.map(|(name, ..)| *name).collect();
    let at_ends = AMOUNTS.iter().filter(|(_, k, amount)| tariff.amounts()[*k] == *amount);
    met.extend(at_ends.map(|(name, ..)| *name));
    let of_rounds = ROUNDS.iter().filter(|(_, is)| rounds.iter().any(is));
    met.extend(of_rounds.map(|(name, _)| *name));
    met.extend(BILLS.iter().filter(|(_, is)| is(walked, tariff)).map(|(name, _)| *name));
    met
}

fn out_of_range(amounts: [u32; 3]) -> Vec<&'static str> {
    let over: Vec<usize> = (0..3).filter(|&which| amounts[which] > MOST_CENTS).collect();
    if over.len() == 3 {
        return vec![ALL_OVER];
    }
    let is = |which: usize, amount: u32| over == [which] && amounts[which] == amount;
    OVER.iter().filter(|(_, which, amount)| is(*which, *amount)).map(|(name, ..)| *name).collect()
}

impl Charged<'_> {
    fn least(&self) -> u64 {
        self.tariff.least.into()
    }

    fn driven(&self) -> u64 {
        self.tariff.driven(units(self.route))
    }

    fn is(&self, which: usize, step: Step) -> bool {
        let shows = self.tariff.rates[which] > 0 && self.driven() > self.least();
        shows && step.holds(figures(self.route)[which], UNITS[which])
    }
}

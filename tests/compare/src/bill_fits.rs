//! Fits a sheet to the begun units of its rounds, and a tariff to what they cost.

use crate::billing::{units, Tariff, MOST_CENTS, UNITS};
use crate::figure_fits::{built, fit_figure, near_units, stand_still, tell_times};
use crate::fit::Round;
use crate::fit_return::fit_rest_at_home;
use crate::plan_calls::with_stops;
use crate::random::Random;
use crate::sheet::Sheet;
use crate::walked::{DISTANCE, DURATION};

/// Makes figures of a round with stops a whole number of units, or one step beside; or none at all.
pub fn fit_units(sheet: &mut Sheet, round: &Round, random: &mut Random) {
    tell_times(sheet, random);
    if random.one_in(4) {
        fit_rest_at_home(sheet, round, random);
    }
    for &which in random.pick(&[&[DISTANCE][..], &[DURATION], &[DISTANCE, DURATION]]) {
        match random.below(6) {
            0 => stand_still(sheet, round, which, random),
            _ => fit_figure(sheet, round, which, |before| near_units(before, UNITS[which], random)),
        }
    }
}

/// Any tariff in range, its least charge as often as not beside what one of the rounds costs.
pub fn tariff(sheet: &Sheet, rounds: &[Round], random: &mut Random) -> Tariff {
    let [distance_rate, duration_rate, least] = [(); 3].map(|()| {
        let (few, any) = (random.below(20), random.below(MOST_CENTS as usize + 1));
        random.pick(&[0, 1, few, few, any, MOST_CENTS as usize]) as u32
    });
    let mut tariff = Tariff { rates: [distance_rate, duration_rate], least };
    let rounds = with_stops(rounds);
    if !rounds.is_empty() && random.one_in(2) {
        let driven = tariff.driven(units(&built(sheet, rounds[random.below(rounds.len())])));
        let least = random.pick(&[driven, driven + 1, driven.saturating_sub(1), driven / 2]);
        tariff.least = least.min(MOST_CENTS.into()) as u32;
    }
    tariff
}

/// Puts one amount out of range, or all.
pub fn overcharge(tariff: &mut Tariff, random: &mut Random) {
    let any = MOST_CENTS + 1 + random.below((u32::MAX - MOST_CENTS) as usize) as u32;
    let over = random.pick(&[MOST_CENTS + 1, MOST_CENTS + 1, 1 << 31, any, u32::MAX, u32::MAX]);
    match random.below(7) {
        0 | 1 => tariff.rates[0] = over,
        2 | 3 => tariff.rates[1] = over,
        4 | 5 => tariff.least = over,
        _ => *tariff = Tariff { rates: [over; 2], least: over },
    }
}
